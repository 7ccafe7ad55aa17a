"""Whether a value is as a JSON schema has it, for the words that this project's schema has."""

import re

TYPES = {"object": dict, "array": list, "string": str, "boolean": bool, "integer": int, "null": type(None)}
# Words that say nothing of a value.
SILENT = {"$schema", "$defs", "title", "description"}


def is_of(value, name):
    """Whether the value has this type; a number isn't a bool."""
    return isinstance(value, TYPES[name]) and not (name == "integer" and isinstance(value, bool))


def fits_object(value, rule):
    known = rule.get("properties", {})
    if any(name not in value for name in rule.get("required", ())):
        return False
    if rule.get("additionalProperties") is False and any(name not in known for name in value):
        return False
    return True


class Schema:
    """A whole schema. A word that isn't known here is an error, and not passed over."""

    def __init__(self, whole):
        self.whole = whole

    def holds(self, value):
        return self.fits(value, self.whole)

    def fits(self, value, rule):
        return all(self.fits_word(value, word, wanted, rule) for word, wanted in rule.items() if word not in SILENT)

    def fits_word(self, value, word, wanted, rule):
        match word:
            case "type":
                return is_of(value, wanted)
            case "enum":
                return any(value == it and type(value) is type(it) for it in wanted)
            case "$ref":
                return self.fits(value, self.whole["$defs"][wanted.removeprefix("#/$defs/")])
            case "anyOf" | "oneOf" | "allOf":
                count = sum(self.fits(value, it) for it in wanted)
                return {"anyOf": count > 0, "oneOf": count == 1, "allOf": count == len(wanted)}[word]
            case "required" | "additionalProperties":
                return fits_object(value, rule)
            case "properties":
                return all(self.fits(value[name], it) for name, it in wanted.items() if name in value)
            case "items":
                return all(self.fits(it, wanted) for it in value)
            case "minItems":
                return len(value) >= wanted
            case "maxItems":
                return len(value) <= wanted
            case "minimum":
                return value >= wanted
            case "pattern":
                return re.search(wanted, value) is not None
        raise ValueError(word)
