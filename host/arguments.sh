# shellcheck shell=sh disable=SC2034 # FILE, DATE, COPY and HEADS are for the script that sources this
# Sourced by ./morning, after tools/setup.sh, and with HOST_DIR set: judges the arguments before anything is built. Sets FILE, DATE, COPY (empty for all), HEADS (empty or yes).

says_option='there is no option %s: see ./morning --help'
says_arguments='too many arguments: see ./morning --help'
says_no_argument='no weights file is given: see ./morning --help'
says_copy='there is no copy named "%s": the copies are %s'
says_date='"%s" is no date: write it as in 2026-11-16'
says_no_file='there is no file %s'
says_not_readable='%s cannot be read'

print_usage() {
    cat <<USAGE
usage: ./morning [--copy NAME] [--heads] FILE [DATE]
       ./morning

Prints the morning's weighing sheets on standard output, a copy for each of: $(all_copies).
FILE has the weights; - is standard input. Without arguments the sample is printed. DATE is written as
in 2026-11-16; without it the sheets have today's.

The file has a line for each animal: place,tag,name,kilograms (Calf house,0412,Anemone,118.4).
Kilograms are from 0.1 to 9999.9, at most one decimal. A field with a comma stands in double quotes.
Blank lines and lines that begin with # are passed over. A line SAMPLE says: these are no real weights.

  --copy NAME   prints the copies of this name alone; with $(divided_copies) an empty sheet with the date
                comes before the sheets of each place, as a divider
  --heads       prints a line above each copy: the sheet's number, the copy's name, the overlay mark
  --help        prints this

Exit status: 0 all sheets are good; 1 the job stopped, and sheets are missing; 2 the arguments or the
weights are refused, and nothing is printed; 3 some sheets are to be held back. A run that begins to
print ends with a line on standard error: how many pages went out, dividers among them, and the feet of
paper that they took.
USAGE
}

refuse_arguments() { # MESSAGE WORD...
    warn "$@"
    exit 2
}

# The names of the copies, a line each: of all, or of those with this way of skipping.
copy_names() { # [WAY]
    sed -n "s/^COPY(\"\(.*\)\", ${1:-.*})\$/\1/p" "$HOST_DIR/copies.def"
}

in_a_row() { paste -sd , - | sed 's/,/, /g'; }

all_copies() { copy_names | in_a_row; }

# Those that have dividers.
divided_copies() { copy_names TRESTLEPIP_OLD_WAY | in_a_row; }

is_copy() { # NAME
    copy_names | {
        while IFS= read -r name; do [ "$name" != "$1" ] || exit 0; done
        exit 1
    }
}

is_leap() { # YEAR
    [ $(($1 % 4)) -eq 0 ] && { [ $(($1 % 100)) -ne 0 ] || [ $(($1 % 400)) -eq 0 ]; }
}

days_of() { # YEAR MONTH
    case $2 in
    01 | 03 | 05 | 07 | 08 | 10 | 12) echo 31 ;;
    04 | 06 | 09 | 11) echo 30 ;;
    02) if is_leap "$1"; then echo 29; else echo 28; fi ;;
    *) echo 0 ;;
    esac
}

# The 1 before a number keeps its zeros from making it octal.
is_date() { # DATE
    digit='[0123456789]'
    # shellcheck disable=SC2254 # a pattern
    case $1 in
    $digit$digit$digit$digit-$digit$digit-$digit$digit) ;;
    *) return 1 ;;
    esac
    month_and_day=${1#*-}
    year=$((1${1%%-*} - 10000)) day=$((1${1##*-} - 100))
    [ "$day" -ge 1 ] && [ "$day" -le "$(days_of "$year" "${month_and_day%-*}")" ]
}

judge_file() { # FILE
    [ "$1" != - ] || return 0
    [ -e "$1" ] || refuse_arguments "$says_no_file" "$1"
    if [ -d "$1" ] || [ ! -r "$1" ]; then refuse_arguments "$says_not_readable" "$1"; fi
}

# Takes a word that is no option: the first is FILE, the second DATE.
take_word() { # WORD
    words=$((words + 1))
    case $words in
    1) FILE=$1 ;;
    2) DATE=$1 ;;
    *) refuse_arguments "$says_arguments" ;;
    esac
}

take_words() { # WORD...
    while [ $# -gt 0 ]; do
        case $1 in
        --help) print_usage; exit 0 ;;
        --heads) HEADS=yes ;;
        --copy)
            is_copy "${2-}" || refuse_arguments "$says_copy" "${2-}" "$(all_copies)"
            COPY=$2
            shift
            ;;
        -?*) refuse_arguments "$says_option" "$1" ;;
        *) take_word "$1" ;;
        esac
        shift
    done
}

judge_arguments() { # WORD...
    FILE='' DATE='' COPY='' HEADS='' words=0
    take_words "$@"
    [ $# -gt 0 ] || take_word "$HOST_DIR/sample.csv"
    [ "$words" -ge 1 ] || refuse_arguments "$says_no_argument"
    [ "$words" -ge 2 ] || take_word "$(date +%Y-%m-%d)"
    is_date "$DATE" || refuse_arguments "$says_date" "$DATE"
    judge_file "$FILE"
}
