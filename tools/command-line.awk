# Tells what a command line of the program asks for, or why it is refused, in the program's own words: as its library `clap`
# reads the command line that crates/nv_tool/src/command_line.rt describes. `tools/command-lines` compares the two.
#
#     LC_ALL=C awk -f tools/command-line.awk -- WORD..
#
# Prints `play`, `trace` or `work` where a script is to be played, and a line with the FILE if there is one; `help` and the subcommand
# that it is of, `version`, or `nothing` where no word stands there; or the text of the refusal, which begins with `error: `.

# The command line. The program itself is the command with the empty name. A command without subcommands takes one FILE.
BEGIN {
    add_command("")
    add_option("play", "echo")
    add_option("play", "summary")
    add_option("play", "quiet")
    add_command("play")
    add_option("trace", "json")
    add_command("trace")
    add_option("work", "threads", "<N>", 1, 32)
    add_option("work", "cleaners", "<M>", 0, 32)
    add_option("work", "summary")
    add_command("work")
    add_option("", "version")
    subcommands[++subcommand_count] = "play"
    subcommands[++subcommand_count] = "trace"
    subcommands[++subcommand_count] = "work"
    subcommands[++subcommand_count] = "help"
    printf "%s\n", are_texts() ? walk("", 1) : refused("an argument is not valid UTF-8", usage("", ""))
}

# A command has `--help` behind its own options.
function add_command(command) {
    add_option(command, "help")
}

# An option with a value has the value's name, and the least and the greatest number that it may be.
function add_option(command, name, value, least, most) {
    options[command, ++option_count[command]] = name
    known[command, name] = 1
    value_name[command, name] = value
    lowest[command, name] = least
    highest[command, name] = most
    if (name != "help" && name != "version") has_options[command] = 1
}

function is_subcommand(word,    k) {
    for (k = 1; k <= subcommand_count; k++) if (subcommands[k] == word) return 1
    return 0
}

# Reads the words of a command from a place on. `used` has the names of what was met, `pending` what waits for its value or has
# it in `value` and is not judged yet, `given` whether it has it.
function walk(command, place,    word, trailing, text) {
    for (; place < ARGC; place++) {
        word = ARGV[place]
        text = ""
        if (!trailing && command == "" && word == "help") return help_of("", place + 1)
        if (!trailing && command == "" && is_subcommand(word)) return walk(word, place + 1)
        if (!trailing && word == "--") trailing = 1
        else if (!trailing && word ~ /^--/) text = long_met(command, substr(word, 3), place)
        else if (!trailing && word ~ /^-[^-]/) text = shorts_met(command, substr(word, 2))
        else if (!trailing && pending != "" && !given) take_value(word)
        else text = value_met(command, word, trailing)
        if (text != "") return text
    }
    if (command == "") return "nothing"
    text = judged(command)
    if (text != "") return text
    return file == "" || file == "-" ? command : command "\n" file
}

function take_value(word) {
    value = word
    given = 1
}

# An option by its long name, with the value behind a `=`, if there is one.
function long_met(command, text, place,    name, at, shown) {
    at = index(text, "=")
    name = at ? substr(text, 1, at - 1) : text
    if (!((command, name) in known)) return unknown_long(command, name, place)
    if (value_name[command, name] == "" && at) {
        shown = used
        judged(command)
        return refused("unexpected value '" substr(text, at + 1) "' for '--" name "' found; no more were expected",
            usage(command, with_name(shown, name)))
    }
    text = at ? substr(text, at + 1) : ""
    shown = judged(command)
    if (shown != "") return shown
    if (name == "help") return command == "" ? "help" : "help " command
    if (name == "version") return "version"
    pending = name
    given = 0
    if (value_name[command, name] == "") return flag_met(command, name)
    if (!at) return ""
    take_value(text)
    return judged(command)
}

# A flag without a value, which may stand there once.
function flag_met(command, name) {
    pending = ""
    if (has_name(used, name)) return repeated(command, name)
    used = with_name(used, name)
    return ""
}

# The letters behind a single `-`. A command has `h`, and the program itself `V`.
function shorts_met(command, letters,    letter, text) {
    while (letters != "") {
        letter = first_letter(letters)
        letters = substr(letters, length(letter) + 1)
        if (letter != "h" && !(letter == "V" && command == "")) {
            judged(command)
            text = "unexpected argument '-" letter "' found"
            if (command != "") text = text "\n\n  tip: to pass '-" letter "' as a value, use '-- -" letter "'"
            return refused(text, usage(command, ""))
        }
        text = judged(command)
        if (text != "") return text
        if (letter == "V") return "version"
        return command == "" ? "help" : "help " command
    }
}

# A word that is no option: the FILE of a command, or no word of the program.
function value_met(command, word, trailing,    text) {
    if (command == "") return unknown_subcommand(word, trailing)
    if (!has_file) {
        text = judged(command)
        has_file = 1
        file = word
        pending = "FILE"
        given = 1
        return text
    }
    judged(command)
    return refused("unexpected argument '" word "' found", usage(command, ""))
}

function unknown_subcommand(word, trailing,    names, k, text, count, name) {
    if (trailing && is_subcommand(word)) {
        text = "unexpected argument '" word "' found\n\n  tip: subcommand '" word "' exists; to use it, remove the '--' before it"
        return refused(text, usage("", ""))
    }
    text = "unrecognized subcommand '" word "'"
    for (k = 1; k <= subcommand_count; k++) rank(subcommands[k], likeness(word, subcommands[k]))
    names = ranked_names("'", ", ")
    if (ranked == 1) text = text "\n\n  tip: a similar subcommand exists: " names
    if (ranked > 1) text = text "\n\n  tip: some similar subcommands exist: " names
    return refused(text, usage("", ""))
}

function unknown_long(command, name, place,    similar, text, k, i) {
    judged(command)
    text = "unexpected argument '--" name "' found"
    similar = similar_option(command, name)
    if (similar != "") {
        used = with_name(used, similar)
        text = text "\n\n  tip: a similar argument exists: '--" similar "'"
    } else if (command != "") {
        text = text "\n\n  tip: to pass '--" name "' as a value, use '-- --" name "'"
    } else {
        for (i = place + 1; i < ARGC && similar == ""; i++) if (is_subcommand(ARGV[i])) {
            similar = similar_option(ARGV[i], name)
            if (similar != "") text = text "\n\n  tip: '" ARGV[i] " --" similar "' exists"
        }
    }
    return refused(text, usage(command, used))
}

# What `help` is asked of, and why it is asked of nothing that there is.
function help_of(command, place,    name) {
    if (place >= ARGC) return command == "" ? "help" : "help " command
    name = ARGV[place]
    if (command == "" && is_subcommand(name)) return help_of(name, place + 1)
    if (command == "help") return "error: unrecognized subcommand '" name "'\n\nUsage: novacore help [COMMAND]..."
    return refused("unrecognized subcommand '" name "'", usage(command, ""))
}

# Judges what was met last, and says why it is refused, if it is.
function judged(command,    name, shown, why) {
    name = pending
    pending = ""
    if (name == "") return ""
    if (name == "FILE") {
        used = with_name(used, name)
        return ""
    }
    shown = "--" name " " value_name[command, name]
    if (!given) return refused("a value is required for '" shown "' but none was supplied", "")
    if (has_name(used, name)) return repeated(command, name)
    used = with_name(used, name)
    why = why_no_number(value, lowest[command, name], highest[command, name])
    return why == "" ? "" : refused("invalid value '" value "' for '" shown "': " why, "")
}

function repeated(command, name,    shown) {
    used = without_name(used, name)
    shown = "--" name (value_name[command, name] == "" ? "" : " " value_name[command, name])
    return refused("the argument '" shown "' cannot be used multiple times", usage(command, ""))
}

# Why a word is no number of these bounds.
function why_no_number(word, least, most,    digits, behind) {
    if (word == "") return "cannot parse integer from empty string"
    if (word ~ /^[+].+/) word = substr(word, 2)
    match(word, /^[0-9]*/)
    behind = substr(word, RLENGTH + 1)
    digits = substr(word, 1, RLENGTH)
    sub(/^0+/, "", digits)
    if (length(digits) > 20 || (length(digits) == 20 && ("n" digits) > "n18446744073709551615"))
        return "number too large to fit in target type"
    if (behind != "") return "invalid digit found in string"
    if (length(digits) > 9 || digits + 0 < least || digits + 0 > most)
        return (digits == "" ? "0" : digits) " is not in " least "..=" most
    return ""
}

function refused(text, usage_line) {
    return "error: " text (usage_line == "" ? "" : "\n\nUsage: " usage_line) "\n\nFor more information, try '--help'."
}

function usage(command, names,    text, name, count, list, k) {
    text = "novacore" (command == "" ? "" : " " command)
    count = split(names, list, " ")
    if (!count && has_options[command]) text = text " [OPTIONS]"
    for (k = 1; k <= count; k++) {
        name = list[k]
        if (name != "FILE") text = text " --" name (value_name[command, name] == "" ? "" : " " value_name[command, name])
    }
    if (command == "") return text " <COMMAND>"
    return text (has_name(names, "FILE") ? " <FILE>" : " [FILE]")
}

# Names in a text, between spaces.
function has_name(names, name) {
    return index(" " names " ", " " name " ") > 0
}

function with_name(names, name) {
    return has_name(names, name) ? names : names (names == "" ? "" : " ") name
}

function without_name(names, name,    count, list, k, left) {
    count = split(names, list, " ")
    for (k = 1; k <= count; k++) if (list[k] != name) left = with_name(left, list[k])
    return left
}

# The option of a command that is most like a name.
function similar_option(command, name,    k) {
    for (k = 1; k <= option_count[command]; k++) rank(options[command, k], likeness(name, options[command, k]))
    k = ranked
    ranked_names("", "")
    return k ? rank_name[k] : ""
}

# Names that are like a word, from the least like on.
function rank(name, how,    k) {
    if (how <= 0.7) return
    for (k = ++ranking; k > 1 && rank_value[k - 1] > how; k--) {
        rank_name[k] = rank_name[k - 1]
        rank_value[k] = rank_value[k - 1]
    }
    rank_name[k] = name
    rank_value[k] = how
    ranked = ranking
}

# The names that were ranked, in one text. `ranked` says how many these are, and the next ranking begins.
function ranked_names(quote, between,    k, text) {
    ranked = ranking
    for (k = 1; k <= ranking; k++) text = text (k > 1 ? between : "") quote rank_name[k] quote
    ranking = 0
    return text
}

# The first letter of a text in UTF-8.
function first_letter(text,    k) {
    for (k = 2; k <= length(text) && substr(text, k, 1) ~ /[\200-\277]/; k++) continue
    return substr(text, 1, k - 1)
}

# Whether each word is text in UTF-8.
function are_texts(    place, count, letters, k) {
    for (place = 1; place < ARGC; place++) {
        count = letters_of(ARGV[place], letters)
        for (k = 1; k <= count; k++) if (!is_letter(letters[k])) return 0
    }
    return 1
}

function is_letter(text) {
    if (length(text) == 1) return text ~ /[\001-\177]/
    if (length(text) == 2) return text ~ /[\302-\337]./
    if (length(text) == 3) return text ~ /\340[\240-\277]./ || text ~ /[\341-\354\356\357]../ || text ~ /\355[\200-\237]./
    return length(text) == 4 && (text ~ /\360[\220-\277]../ || text ~ /[\361-\363].../ || text ~ /\364[\200-\217]../)
}

function letters_of(text, letters,    count) {
    while (text != "") {
        letters[++count] = first_letter(text)
        text = substr(text, length(letters[count]) + 1)
    }
    return count + 0
}

# How like two words are, from 0 to 1, by the measure of Jaro.
function likeness(one, other,    a, b, taken, m, n, range, i, j, matches, met, differing) {
    if (one == other) return 1
    m = letters_of(one, a)
    n = letters_of(other, b)
    range = int((m > n ? m : n) / 2) - 1
    if (range < 0) range = 0
    for (i = 1; i <= m; i++)
        for (j = i > range ? i - range : 1; j <= n && j <= i + range; j++)
            if (!taken[j] && a[i] == b[j]) {
                taken[j] = 1
                met[++matches] = a[i]
                break
            }
    if (!matches) return 0
    i = 0
    for (j = 1; j <= n; j++) if (taken[j] && met[++i] != b[j]) differing++
    return (matches / m + matches / n + (matches - int(differing / 2)) / matches) / 3
}
