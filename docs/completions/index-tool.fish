# Completes the words of index-tool in fish. Made by docs/words of tools/words.py.
function __index_tool_before -d 'Whether so many words stand behind the command, without options and the kind'
    set -l words (commandline -opc | string match -rv -- '^-.')
    set -l more $words[3..-1]
    test (count $words) -ge 2; and test (count (string match -rv -- '^(sha1|sha256)$' $more)) -eq $argv[1]
end
function __index_tool_first -d 'Whether nothing but options stands behind the command'
    test (count (commandline -opc | string match -rv -- '^-.')) -eq 2
end
complete -c index-tool -f
complete -c index-tool -s h -l help -d 'Print help'
complete -c index-tool -n __fish_use_subcommand -s V -l version -d 'Print version'
complete -c index-tool -n __fish_use_subcommand -a list -d 'prints mode, id, stage and path of each entry, as git ls-files --stage does, unquoted'
complete -c index-tool -n __fish_use_subcommand -a check -d 'prints ok if entries are in order, the cache tree is consistent and the checksum matches'
complete -c index-tool -n __fish_use_subcommand -a check-trees -d 'prints ok if, in addition, the cache tree matches the entries'
complete -c index-tool -n __fish_use_subcommand -a map -d 'prints offset, length and name of each part of FILE, up to its first error'
complete -c index-tool -n __fish_use_subcommand -a map-svg -d 'draws these parts to scale, as an SVG picture'
complete -c index-tool -n __fish_use_subcommand -a show -d 'prints all of FILE except unknown or malformed extensions'
complete -c index-tool -n __fish_use_subcommand -a show-json -d 'prints the same as one JSON object'
complete -c index-tool -n __fish_use_subcommand -a trees -d 'prints id, entry count and path of each directory, as git write-tree makes them'
complete -c index-tool -n __fish_use_subcommand -a rewrite -d 'writes OUT with TREE, sdir and an end marker, in version 2, or 3 if flags need it'
complete -c index-tool -n __fish_use_subcommand -a rewrite4 -d 'does the same in version 4'
complete -c index-tool -n __fish_use_subcommand -a rewrite-trees -d 'writes OUT with a rebuilt cache tree that names only trees which FILE’s already named'
complete -c index-tool -n __fish_use_subcommand -a update -d 'changes FILE by the lines of standard input, as git update-index --index-info does'
complete -c index-tool -n __fish_use_subcommand -a salvage -d 'writes to OUT the entries of a damaged FILE before the first invalid one, and a report'
complete -c index-tool -n __fish_use_subcommand -a help -d 'Print the help, or that of a command'
complete -c index-tool -n '__index_tool_first; and not __fish_seen_subcommand_from help' -a 'sha1 sha256'
complete -c index-tool -n '__fish_seen_subcommand_from help' -a 'list check check-trees map map-svg show show-json trees rewrite rewrite4 rewrite-trees update salvage'
complete -c index-tool -n 'not __fish_use_subcommand; and not __fish_seen_subcommand_from help' -s a -l auto -d 'KIND may be omitted, and FILE in a work tree'
complete -c index-tool -n '__fish_seen_subcommand_from list' -s z -d 'ends each line with a NUL byte'
complete -c index-tool -n '__fish_seen_subcommand_from list' -l quote -d 'quotes paths with unusual bytes, as git does'
complete -c index-tool -n '__fish_seen_subcommand_from check' -l strict -d 'tests also the mode, path and id of each entry, and for paths inside another entry'
complete -c index-tool -n '__fish_seen_subcommand_from check-trees' -l strict -d 'tests also the mode, path and id of each entry, and for paths inside another entry'
complete -c index-tool -n '__fish_seen_subcommand_from map' -s z -d 'ends each line with a NUL byte'
complete -c index-tool -n '__fish_seen_subcommand_from map' -l quote -d 'quotes paths with unusual bytes, as git does'
complete -c index-tool -n '__fish_seen_subcommand_from trees' -s z -d 'ends each line with a NUL byte'
complete -c index-tool -n '__fish_seen_subcommand_from trees' -l quote -d 'quotes paths with unusual bytes, as git does'
complete -c index-tool -n '__fish_seen_subcommand_from rewrite' -l keep -d 'writes every extension of FILE that fits its entries, and keeps version 4'
complete -c index-tool -n '__fish_seen_subcommand_from rewrite4' -l keep -d 'writes every extension of FILE that fits its entries'
complete -c index-tool -n '__fish_seen_subcommand_from rewrite-trees' -l missing-ok -d 'names all trees, including those that are not in the repository yet (run git write-tree afterwards)'
complete -c index-tool -n '__fish_seen_subcommand_from update' -s z -d 'reads lines that end with a NUL byte, with paths that are not quoted'
complete -c index-tool -n '__fish_seen_subcommand_from salvage' -l all -d 'writes also the well-formed entries after the first invalid one'
complete -c index-tool -n '__index_tool_before 0; and not __fish_seen_subcommand_from help' -F
complete -c index-tool -n '__index_tool_before 1; and __fish_seen_subcommand_from rewrite rewrite4 rewrite-trees salvage' -F
