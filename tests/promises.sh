#!/bin/sh
# tests/promises.sh: what docs/PROMISES.md and docs/DECISIONS.md name in backquotes is there, and the definitions stand on no proof.
# - A row of a table that ends in files: each name of the row is defined in one of these files, and each of these files defines one.
# - A row of the table of edits: the crate has the edit, and the crate defines each name by which it fails. And each edit has a row.
# - Any other name is a file, a folder, or is defined somewhere in crates/.
# - No spec and no file of code imports from proofs.
# Prints what is wrong and last 'N passed, M failed'.
set -u
cd "$(dirname "$0")/.." || exit 2

find README.md bench crates crates.txt desk docs include tables test tests tools -type f | LC_ALL=C awk '
    function result(good, text) {
        if (good) passed++
        else { failed++; print text }
    }

    # A name is defined in a file, and so in a crate, and somewhere.
    function define(path, name,    part) {
        split(path, part, "/")
        in_file[path, name] = in_crate[part[2], name] = defined[name] = 1
    }

    # A line of a spec or a proof: NAME : .., or the name of a record or of data.
    function learn_law(path, line,    word, is_type) {
        sub(/^ +/, "", line)
        while (line ~ /^(unfoldable|abbrev|pub|data|record) /) {
            if (line ~ /^(data|record) /) is_type = 1
            sub(/^[a-z]+ +/, "", line)
        }
        split(line, word, " ")
        if (is_type || word[2] == ":") define(path, word[1])
    }

    # A line of code: a function, a type, a trait, a constant, a module, or the field of a type.
    function learn_code(path, line) {
        sub(/^ +/, "", line)
        if (line ~ /^pub [a-z_]+: /) line = "field " substr(line, 5)
        sub(/^pub /, "", line)
        sub(/^extern "C" /, "", line)
        if (line !~ /^(fn|struct|enum|trait|type|const|mod|field) [A-Za-z_]/) return
        sub(/^[a-z]+ /, "", line)
        sub(/[^A-Za-z0-9_].*/, "", line)
        define(path, line)
    }

    function learn(path,    line, stands, law) {
        law = path ~ /\.antt$/
        stands = 1
        while ((getline line < path) > 0) {
            if (line ~ /^ *(pub )?(ghost )?use / && index(line, ".proofs")) stands = 0
            if (law) learn_law(path, line)
            else learn_code(path, line)
        }
        close(path)
        if (path ~ /^crates\/[a-z_]+\/specs\/.*\.antt$/ || path ~ /^crates\/[a-z_]+\/src\/.*\.rt$/)
            result(stands, path " imports from proofs")
    }

    # A file is known by its path, and also by its name and by the folders above it.
    function list(path,    part, count, i, folder) {
        file[path] = there[path] = 1
        count = split(path, part, "/")
        there[part[count]] = 1
        folder = part[1]
        for (i = 2; i <= count; i++) {
            there[folder] = there[part[i - 1]] = 1
            folder = folder "/" part[i]
        }
        if (path ~ /^crates\/[a-z_]+\/must-fail\/.*\.edit$/) {
            edit[path] = 1
            sub(/\.edit$/, "", part[count])
            define(path, part[count])
        }
    }

    # The names in backquotes of a text: without their modules, and none with a blank, nor a type of the language.
    function names_of(text, name,    part, count, i, found) {
        count = split(text, part, "`")
        for (i = 2; i < count; i += 2) {
            if (index(part[i], " ") || part[i] ~ /^[iu](8|16|32|64|size)$/) continue
            sub(/^\.\//, "", part[i])
            sub(/\/$/, "", part[i])
            sub(/.*::/, "", part[i])
            name[++found] = part[i]
        }
        return found + 0
    }

    function check_names(where, text,    name, count, i) {
        count = names_of(text, name)
        for (i = 1; i <= count; i++)
            result((name[i] in defined) || (name[i] in there) || (("crates/" name[i]) in there),
                where " names " name[i] ", which is not there")
    }

    # A row that ends in files, whose names stand in the text before them.
    function check_files(where, text, files,    name, count, path, paths, i, j, found, used) {
        count = names_of(text, name)
        paths = names_of(files, path)
        for (i = 1; i <= count; i++) {
            found = 0
            for (j = 1; j <= paths; j++)
                if (("crates/" path[j], name[i]) in in_file) found = used[j] = 1
            result(found, where " names " name[i] ", which is not defined in " files)
        }
        for (j = 1; j <= paths; j++)
            result(used[j], where " gives " path[j] ", which " ((("crates/" path[j]) in file) ? "defines none of its names" : "is no file"))
    }

    function check_edit(where, crate, wrong, law,    name, count, i, path) {
        names_of(wrong, name)
        path = "crates/" crate "/must-fail/" name[1] ".edit"
        result(path in edit, where " names the edit " path ", which is not there")
        listed[path] = 1
        count = names_of(law, name)
        for (i = 1; i <= count; i++)
            result((crate, name[i]) in in_crate, where " names " name[i] ", which is not defined in " crate)
    }

    # A row of a table; of the edits if the table begins by crate and edit.
    function check_row(where, line,    cell, count, i, text) {
        count = split(line, cell, "|") - 1
        for (i = 2; i <= count; i++) gsub(/^ +| +$/, "", cell[i])
        if (!in_table) of_edits = cell[2] == "Crate" && cell[3] == "Edit"
        for (i = 2; i < count; i++) text = text " " cell[i]
        if (of_edits && in_table) { if (cell[2] !~ /^-+$/) check_edit(where, cell[2], cell[3], cell[count]) }
        else if (cell[count] ~ /`[a-z_]+\/(specs|proofs|src)\/[^`]*\.(antt|rt)`/) check_files(where, text, cell[count])
        else check_names(where, line)
    }

    function check_document(path,    line, number) {
        while ((getline line < path) > 0) {
            number++
            if (line ~ /^\|/) check_row(path ":" number, line)
            else check_names(path ":" number, line)
            in_table = line ~ /^\|/
        }
        close(path)
        result(number, path " is empty or not there")
    }

    { list($0) }
    /^crates\/.*\.(antt|rt)$/ { learn($0) }
    END {
        check_document("docs/PROMISES.md")
        check_document("docs/DECISIONS.md")
        for (path in edit) result(path in listed, "docs/PROMISES.md does not name " path)
        print (passed + 0) " passed, " (failed + 0) " failed"
        exit !(passed && !failed)
    }'
