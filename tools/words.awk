# Says what is wrong with the words of a command line, or prints nothing: awk -f words.awk -- PROGRAM WORD ..
# PROGRAM is fmm, fmm_large or fmm_live. The commands, options and ranges are those of the manual page, whose path is in the
# environment as FMM_PAGE. FMM_COMMANDS has the names of further commands, which are only suggested.

function plain(text) { gsub(/\\-/, "-", text); return text }

# Reads the forms of the commands and the ranges of the options.
function read_page(    line, section, words, count, i, name, ends) {
    while ((getline line < ENVIRON["FMM_PAGE"]) > 0) {
        line = plain(line)
        count = split(line, words, " ")
        if (words[1] == ".SH") { section = words[2]; continue }
        if (section == "SYNOPSIS" && line !~ /^\./) {
            i = words[1] == "fmm_live" ? 2 : 3
            name = words[i - 1]
            if (words[1] == "fmm_large" || name !~ /^[a-z]/) continue
            commands[name]
            for (; i <= count && words[i] !~ /^\[/; i++) arguments[name, ++many[name]] = words[i]
            if (words[i] != "[--NAME") { sub(/^\[/, "", words[i]); own[name, words[i]]; owned[words[i]] }
        }
        if (section == "OPTIONS" && words[1] == ".BI") { name = words[2]; options[name]; order[++known] = name }
        else if (section == "OPTIONS" && name != "" && match(line, /[0-9,]+ to [0-9,]+/)) {
            split(substr(line, RSTART, RLENGTH), ends, " to ")
            range[name] = ends[1] " to " ends[2]
            sub(/,$/, "", range[name])
            name = ""
        }
    }
}

# The edits that turn one word into another, an exchange of neighbours counted as one.
function distance(from, to,    i, j, same, least, d) {
    for (i = 0; i <= length(from); i++) d[i, 0] = i
    for (j = 0; j <= length(to); j++) d[0, j] = j
    for (i = 1; i <= length(from); i++)
        for (j = 1; j <= length(to); j++) {
            same = substr(from, i, 1) == substr(to, j, 1)
            least = d[i - 1, j - 1] + !same
            if (d[i - 1, j] + 1 < least) least = d[i - 1, j] + 1
            if (d[i, j - 1] + 1 < least) least = d[i, j - 1] + 1
            if (i > 1 && j > 1 && substr(from, i, 1) == substr(to, j - 1, 1) && substr(from, i - 1, 1) == substr(to, j, 1) \
                && d[i - 2, j - 2] + 1 < least) least = d[i - 2, j - 2] + 1
            d[i, j] = least
        }
    return d[length(from), length(to)]
}

# "; did you mean WORD?" for the nearest of the words, if one is near or begins like this one.
function meant(word, words, prefix,    it, best, least, far) {
    least = length(word) < 6 ? 2 : 3
    for (it in words) {
        if (length(word) > length(prefix) && index(it, word) == 1) return "; did you mean " it "?"
        far = distance(word, it)
        if (far < least || far == least && best != "" && it < best) { least = far; best = it }
    }
    return best == "" ? "" : "; did you mean " best "?"
}

function shown(word) { gsub(/[\001-\037\177]/, "?", word); return word == "" ? "an empty word" : word }

# Whether the word is a number of the range: at most 20 digits without a sign.
function is_in(word, span,    ends) {
    if (word !~ /^[0-9]+$/ || length(word) > 20) return 0
    split(span, ends, " to ")
    gsub(/,/, "", ends[1]); gsub(/,/, "", ends[2])
    return word + 0 >= ends[1] + 0 && word + 0 <= ends[2] + 0
}

function fault(text) { if (!said) { said = 1; print text } }

function names_of(words,    it, text) {
    for (it in words) text = text (text == "" ? "" : ", ") it
    return text
}

# Checks an option and its value, and returns how many words it takes.
function check_option(at,    word, name, value, takes) {
    word = ARGV[at]
    takes = 1
    name = word
    if (match(word, /=/)) { name = substr(word, 1, RSTART - 1); value = substr(word, RSTART + 1) }
    else if (at + 1 < ARGC && (ARGV[at + 1] !~ /^-/ || ARGV[at + 1] == "-")) { value = ARGV[at + 1]; takes = 2 }
    else takes = 0
    if (("-" name) in options) fault(name " is no option; did you mean -" name "?")
    else if (name !~ /^--/) fault(shown(word) " begins with a hyphen; write -- before arguments that do")
    else if (!(name in options)) fault(shown(name) " is no option" meant(name, options, "--"))
    else if (name in owned && !((command, name) in own)) fault(name " is no option of " command)
    else if (name in given) fault(name " is given twice")
    else if (!takes) fault(name " has no value")
    given[name] = value
    return takes ? takes : 1
}

function check_values(    i, name, wrong, arguments_of, ends) {
    for (i = 1; i <= known; i++) {
        name = order[i]
        if (name in given && name in range && !is_in(given[name], range[name]))
            wrong = wrong (wrong == "" ? "" : "; ") name ": " shown(given[name]) " is not a whole number from " range[name]
    }
    if (command == "town") {
        ends["N"] = "2 to 100"; ends["T"] = "1 to 2,000"; ends["SEED"] = "0 to 4,294,967,295"
        for (i = 1; i <= 3; i++) {
            name = arguments[command, i]
            if (!is_in(place[i], ends[name]))
                wrong = wrong (wrong == "" ? "" : "; ") name ": " shown(place[i]) " is not a whole number from " ends[name]
        }
    }
    if (wrong != "") fault(wrong)
}

BEGIN {
    read_page()
    program = ARGV[1]
    at = 2
    if (program == "fmm_live") command = "fmm_live"
    else {
        command = ARGV[at++]
        if (!(command in commands) || command == "fmm_live") {
            delete commands["fmm_live"]
            split(ENVIRON["FMM_COMMANDS"], further, " ")
            for (i in further) commands[further[i]]
            if (command ~ /^-/) fault("the command comes first: " program " COMMAND ARGUMENTS [--NAME VALUE ..]")
            else fault(shown(command) " is no command" meant(command, commands, ""))
            exit
        }
    }
    for (; at < ARGC; at++) {
        if (!literal && ARGV[at] == "--") literal = 1
        else if (!literal && ARGV[at] ~ /^-./) at += check_option(at) - 1
        else place[++count] = ARGV[at]
    }
    if (count < many[command]) {
        for (i = count + 1; i <= many[command]; i++) wanted = wanted (wanted == "" ? "" : " and ") arguments[command, i]
        fault(command " needs " wanted " as well")
    }
    if (count > many[command]) fault(shown(place[many[command] + 1]) " is one argument too many for " command)
    check_values()
}
