"""Writes completions for bash, zsh and fish."""

MADE = "# Completion of licscan for {}, made by scripts/manpage/make.py from what the program says by --help.\n"

BASH = """\
_licscan() {
    local cur=${COMP_WORDS[COMP_CWORD]} prev=${COMP_WORDS[COMP_CWORD-1]} options='' word
    # bash makes a word of its own of the sign in --words=FILE
    [ "$prev" = = ] && prev=${COMP_WORDS[COMP_CWORD-2]}
    [ "$cur" = = ] && cur=''
    COMPREPLY=()
    if [ "$COMP_CWORD" -eq 1 ]; then
        compopt +o default 2> /dev/null
        mapfile -t COMPREPLY < <(compgen -W '%(words)s' -- "$cur")
        return
    fi
    for word in "${COMP_WORDS[@]:1:COMP_CWORD-1}"; do
        [ "$word" = -- ] && return
    done
    case ${COMP_WORDS[1]}:$prev in
%(values)s
    esac
    case ${COMP_WORDS[1]} in
%(options)s
    esac
    [ "${cur:0:1}" = - ] && mapfile -t COMPREPLY < <(compgen -W "$options" -- "$cur")
}
complete -o default -F _licscan licscan
"""

# what takes the place of completion by file names where that is not wanted
BASH_KINDS = {"folder": "compopt +o default -o dirnames 2> /dev/null; return", "file": "return", "none": "compopt +o default 2> /dev/null; return"}

ZSH = """\
_licscan() {
    local curcontext=$curcontext state line
    local -a commands=(
%(commands)s
    )
    _arguments -C \\
%(options)s
        '1:command:->command' \\
        '*::argument:->argument'
    case $state in
    command) _describe command commands ;;
    argument)
        case $words[1] in
%(cases)s
        esac ;;
    esac
}
_licscan "$@"
"""

ZSH_KINDS = {"folder": "_files -/", "file": "_files", "none": " "}
FISH_KINDS = {"folder": " -x -a '(__fish_complete_directories)'", "file": " -r -F", "none": " -x", "": ""}


def quoted(text):
    return "'" + text.replace("'", "'\\''") + "'"


def names_of(entries):
    return " ".join(name for entry in entries for name in entry.names)


def bash(whole, pages):
    values = [f"    {command}:{name}) {BASH_KINDS[entry.takes]} ;;" for command, page in pages.items()
              for entry in page.options if entry.takes for name in entry.names]
    options = [f"    {command}) options='{names_of(page.options)}'{'' if page.arguments else '; compopt +o default 2> /dev/null'} ;;"
               for command, page in pages.items()]
    helped = f"    help) compopt +o default 2> /dev/null; mapfile -t COMPREPLY < <(compgen -W '{names_of(whole.commands)}' -- \"$cur\"); return ;;"
    return MADE.format("bash") + BASH % {"words": f"{names_of(whole.commands)} {names_of(whole.options)}", "values": "\n".join(values),
                                         "options": "\n".join(options + [helped])}


def zsh_option(entry):
    text = entry.text.replace("[", "\\[").replace("]", "\\]").replace(":", "\\:")
    value = ":" + entry.value.replace(":", "\\:") + ":" + ZSH_KINDS[entry.takes] if entry.takes else ""
    alone = "(- *)" if "--help" in entry.names or "--version" in entry.names else ""
    return [quoted(f"{alone}{name}{'=' if value and name.startswith('--') else ''}[{text}]{value}") for name in entry.names]


def zsh(whole, pages):
    commands = "\n".join("        " + quoted(entry.names[0] + ":" + entry.text.replace(":", "\\:")) for entry in whole.commands)
    options = "\n".join(f"        {line} \\" for entry in whole.options for line in zsh_option(entry))
    cases = []
    for command, page in pages.items():
        lines = [line for entry in page.options for line in zsh_option(entry)] + ["'*:file:_files'"] * bool(page.arguments)
        cases.append(f"        {command}) _arguments \\\n" + " \\\n".join(f"            {line}" for line in lines) + " ;;")
    cases.append("        help) _describe command commands ;;")
    return "#compdef licscan\n" + MADE.format("zsh") + ZSH % {"commands": commands, "options": options, "cases": "\n".join(cases)}


def fish_option(condition, entry):
    names = "".join(f" -l {name[2:]}" if name.startswith("--") else f" -s {name[1:]}" for name in entry.names)
    return f"complete -c licscan -n {quoted(condition)}{names}{FISH_KINDS[entry.takes]} -d {quoted(entry.text)}"


def fish(whole, pages):
    lines = ["complete -c licscan -f"]
    lines += [f"complete -c licscan -n __fish_use_subcommand -a {entry.names[0]} -d {quoted(entry.text)}" for entry in whole.commands]
    lines += [fish_option("__fish_use_subcommand", entry) for entry in whole.options]
    for command, page in pages.items():
        condition = f"__fish_seen_subcommand_from {command}"
        lines += [fish_option(condition, entry) for entry in page.options]
        lines += [f"complete -c licscan -n {quoted(condition)} -F"] * bool(page.arguments)
    lines.append(f"complete -c licscan -n '__fish_seen_subcommand_from help' -a {quoted(' '.join(pages))}")
    return MADE.format("fish") + "\n".join(lines) + "\n"
