#!/bin/sh
# Makes report pages of eight clusters and takes pictures of each in headless Chromium: 390, 1024 and 1600 pixels wide, light and dark, and
# printed. They stand in build/look/ afterwards, to be looked at: nothing here judges them. CHROMIUM names another browser of that kind, and
# words after the script's name choose some of the clusters.
set -u
cd "$(dirname "$0")/.." || exit 2
command=console/target/release/dezghuri
look=build/look
wanted=$*

fail() { printf 'look: %s\n' "$*" >&2; exit 1; }

browser=
for name in ${CHROMIUM:+"$CHROMIUM"} chromium chromium-headless-shell chromium-browser google-chrome; do
    if command -v "$name" >/dev/null 2>&1; then browser=$name; break; fi
done
[ -n "$browser" ] || fail "Chromium is missing: install it (on Debian: apt-get install chromium), or name it in CHROMIUM"
[ -x "$command" ] || fail "$command is missing: make look builds it"
mkdir -p $look || exit 2
rm -f $look/*.txt $look/*.layout $look/*.html

# head_lines COPIES ZONES [BITS]: the first lines of a description.
head_lines() { printf 'copies %s\nzones %s\nbits %s\n' "$1" "$2" "${3-8}"; }

# nineteen EVERY: nineteen boxes in six zones; of each EVERY one the id, or all as they are with 0.
nineteen() {
    head_lines 3 2
    i=1
    while [ $i -le 19 ]; do
        id=$i
        if [ "$1" -ne 0 ] && [ $((i % $1)) -eq 0 ]; then id=$((i + 100)); fi
        printf 'box %d house%d %dT shelf %d\n' $id $((i % 6 + 1)) $((i % 4 + 1)) $i
        i=$((i + 1))
    done
}

# thirty_two SHIFT: boxes with the longest ids and long names, in eight zones; SHIFT moves the capacities on.
thirty_two() {
    head_lines 8 4
    i=0
    while [ $i -lt 32 ]; do
        printf 'box %d the-house-with-the-long-name-%d %dT a box whose owner likes to give it a long name, number %d\n' \
            $((4294967264 + i)) $((i % 8)) $(((i + $1) % 5 + 2)) $i
        i=$((i + 1))
    done
}

# shown NAME STATUS HEIGHT HEIGHT HEIGHT: the page of NAME.txt, from NAME-before.txt where that is there; the heights of its pictures.
shown() {
    case " $wanted " in '  ' | *" $1 "*) ;; *) return ;; esac
    former=
    if [ -f $look/"$1"-before.txt ]; then
        $command plan $look/"$1"-before.txt --out $look/"$1"-before.layout >/dev/null || fail "$1 was not planned"
        former="--former $look/$1-before.layout"
    fi
    # shellcheck disable=SC2086
    $command report $look/"$1".txt $former --out $look/"$1".html >/dev/null
    [ $? -eq "$2" ] || fail "$1 has no page"
    picture "$1" 390 "$3"; picture "$1" 1024 "$4"; picture "$1" 1600 "$5"
    run --no-pdf-header-footer --print-to-pdf="$PWD/$look/$1.pdf" "file://$PWD/$look/$1.html"
}

# run WORDS: the browser, in a folder of its own; root needs it without a sandbox.
run() {
    sandbox=
    [ "$(id -u)" -ne 0 ] || sandbox=--no-sandbox
    "$browser" --headless --disable-gpu $sandbox --hide-scrollbars --user-data-dir="$PWD/$look/profile" "$@" >$look/browser.log 2>&1 ||
        { cat $look/browser.log; fail "the browser failed"; }
}

# picture NAME WIDTH HEIGHT: light and dark.
picture() {
    for scheme in 1-light 0-dark; do
        run --blink-settings=preferredColorScheme=${scheme%-*} --window-size="$2,$3" \
            --screenshot="$PWD/$look/$1-$2-${scheme#*-}.png" "file://$PWD/$look/$1.html"
    done
}

cp samples/home.txt $look/home-before.txt
cp samples/home-next.txt $look/home.txt
nineteen 0 >$look/nineteen-before.txt
nineteen 9 >$look/nineteen.txt
thirty_two 0 >$look/thirty-two-before.txt
thirty_two 2 >$look/thirty-two.txt
{ head_lines 1 1; printf 'box 1 home 2T\n'; } >$look/one.txt
{ head_lines 2 1 0; printf 'box 1 home 9G\nbox 2 home 8G\nbox 3 shop 7G\n'; } >$look/k0-before.txt
{ head_lines 2 2 0; printf 'box 1 home 9G\nbox 3 shop 7G\nbox 4 shop 9G\n'; } >$look/k0.txt
{ head_lines 2 1; printf 'box 1 shop 1.7T\nbox 2 shop 1.7T\nbox 3 home 1.7T study\n'; } >$look/lost-before.txt
{ head_lines 2 1; printf 'box 3 home 1.7T study\nbox 4 shop 1.71T\nbox 5 shop 1.71T\n'; } >$look/lost.txt
{ cat samples/home.txt; printf 'ceiling 1 120\nceiling 3 250\n'; } >$look/ceilings.txt
cp samples/home.txt $look/ceilings-before.txt
sed 's/^zones 2/zones 4/; s/^copies 3/copies 4/' samples/home.txt >$look/refused.txt

shown home 0 14500 5500 4400
shown nineteen 0 17500 6200 5000
shown thirty-two 0 34000 16000 12000
shown one 0 8000 2000 1600
shown k0 0 2100 1300 1300
shown lost 0 16000 5600 4500
shown ceilings 0 14500 5500 4400
shown refused 1 1600 1000 1000
rm -rf $look/profile $look/browser.log
printf 'look: pictures are in %s/\n' $look
