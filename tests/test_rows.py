"""The tables of rows and their answers are those that the model makes (tests/model)."""
from tests.case import Case
from tests.model import tables


class Rows(Case):
    def test_model_answers_worked_lines(self):
        self.hold_all(tables.worked())

    def test_rows_of_indexes(self):
        self.hold_all(tables.compared("test_rows"))

    def test_rows_of_lookups(self):
        self.hold_all(tables.compared("test_lookup_rows"))

    def test_rows_of_changes(self):
        self.hold_all(tables.compared("test_change_rows"))
