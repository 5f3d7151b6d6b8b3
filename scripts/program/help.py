"""Cases of the texts of the arguments' parser."""
from harness import VERSION, Case

HELP = b"""\
Finds the ranges of texts that licence templates match

Usage: licscan <COMMAND>

Commands:
  scan    Prints each range of a file that a template matches
  check   Checks that each template matches its own original text
  tokens  Prints each token of a file
  help    Print this message or the help of the given subcommand(s)

Options:
  -h, --help     Print help
  -V, --version  Print version
"""

SCAN_HELP = b"""\
Prints each range of a file that a template matches

Usage: licscan scan [OPTIONS] --templates <DIR> [FILES]...

Arguments:
  [FILES]...  The files to read; none, or -, is standard input

Options:
      --templates <DIR>  The folder of the templates
      --words <FILE>     The list of words that count as the same
      --rules <FILE>     The line rules: comment marks and list items to ignore
      --all              Write every match, and no variables
      --after <F:L:ID>   With --all: only what comes after this match
      --limit <N>        With --all: at most N lines for each file
  -h, --help             Print help

Templates are the files of DIR whose names end in .template.txt; the part before
that is the identifier.

Without --all a match is left out where a shorter one of the same template lies
within it, and of the rest one that lies within a longer one of another
template. With --all every match is written.

A match is a line of six fields with a tab between two: the file, the
template's identifier, the numbers of the first and the last token, counted
from 0, the byte at which the match starts, and the byte just past its end.

Without --all a line for each variable of the template follows: an empty field,
the variable's name, the byte at which its value starts, the byte just past its
end, and the value. If a variable has no value, a - follows its name.

F:L:ID are the numbers of a first and a last token, and an identifier.

Status: 0 if a line was written, 1 if none was, 2 if there was an error.

Example: licscan scan --templates templates LICENSE README
"""

CHECK_HELP = b"""\
Checks that each template matches its own original text

Usage: licscan check [OPTIONS] --templates <DIR>

Options:
      --templates <DIR>  The folder of the templates
      --words <FILE>     The list of words that count as the same
      --rules <FILE>     The line rules: comment marks and list items to ignore
  -h, --help             Print help

Templates are the files of DIR whose names end in .template.txt; the part before
that is the identifier.

A template is a line of three fields with a tab between two: the identifier,
the weight, and yes or no. The original text is the template with each
variable's original value in its place and with all optional parts.

Status: 1 if a line says no, else 0; 2 if there was an error.

Example: licscan check --templates templates
"""

TOKENS_HELP = b"""\
Prints each token of a file

Usage: licscan tokens [OPTIONS] [FILES]...

Arguments:
  [FILES]...  The files to read; none, or -, is standard input

Options:
      --words <FILE>  The list of words that count as the same
      --rules <FILE>  The line rules: comment marks and list items to ignore
  -h, --help          Print help

A line has four fields with a tab between two: the file, the byte at which the
token starts, the byte just past its end, and the token's text.

Status: 0 if a line was written, 1 if none was, 2 if there was an error.

Example: licscan tokens LICENSE
"""

NO_COMMAND = b"""\
error: 'licscan' requires a subcommand but one was not provided
  [subcommands: scan, check, tokens, help]

Usage: licscan <COMMAND>

For more information, try '--help'.
"""

NO_TEMPLATES = b"""\
error: the following required arguments were not provided:
  --templates <DIR>

Usage: licscan scan --templates <DIR> --all [FILES]...

For more information, try '--help'.
"""

BAD_LIMIT = b"""\
error: invalid value '0' for '--limit <N>': 0 is not in 1..=4294967295

For more information, try '--help'.
"""

CASES = [
    Case('help is shown', ['--help'], out=HELP),
    Case('the version is shown', ['--version'], out=f'licscan {VERSION}\n'.encode()),
    Case('help of scan', ['scan', '--help'], out=SCAN_HELP),
    Case('help of check', ['check', '--help'], out=CHECK_HELP),
    Case('help of tokens', ['tokens', '--help'], out=TOKENS_HELP),
    Case('usage without a command', [], status=2, err=NO_COMMAND),
    Case('usage without templates', ['scan', '--all'], status=2, err=NO_TEMPLATES),
    Case('a limit of 0', ['scan', '--all', '--templates', 't', '--limit', '0'], status=2, err=BAD_LIMIT),
]
