#!/bin/sh
# Compares the documents with what they tell of: runs every command of README.md and docs/HELPDESK.md in a scratch folder and compares what it
# prints; looks whether each file, definition, theorem, function and command that a document names is there; compares the table of refusals with
# share/refusals.tsv; and measures lines. The program is built first if need be; the commands run an installed copy. Needs python3.
# docs/DECISIONS.md and docs/LANDINGS.md also name what is gone, so their names are not looked up. The last line is `N passed, M failed`.
set -u

root=$(CDPATH='' cd -- "$(dirname -- "$0")/.." && pwd -P) || exit 1
"$root/tools/build.sh" xmf || exit 1
. "$root/tools/harness.sh"
exec </dev/null
unset XMF_SHELF
mkdir -p "$work/to/bin" "$work/to/libexec/xmf" "$work/to/share"
cp "$root/xmf" "$work/to/bin/xmf" && cp "$root/target/bin/xmf" "$work/to/libexec/xmf/xmf" && cp -R "$root/share" "$work/to/share/xmf" || exit 1
cd -- "$root" || exit 1
# what README.md says that a first build says, and how many crates ./sheet takes
first=$(
    prefix=xmf
    . "$root/share/build.sh"
    left=" $(built_crates xmf) " finished=0 gone=0 began=0
    built_tell 2>&1
)
tr '\n' ' ' <README.md | grep -Fq "\`$first\`"
count $? "README.md: $first"
grep -Fq ": $(crates_of xmf_sheet | wc -w) crates." README.md
count $? 'README.md: the crates of ./sheet'
python3 tools/try_docs.py "$work" >>"$work/said"
status=$?
sed -n '/^passed$/!p' "$work/said"
grep -x passed "$work/said" >>"$counts"
sed -n 's/.*: failed$/failed/p' "$work/said" >>"$counts"
[ "$status" -eq 0 ]
count $? 'try_docs.py came to its end'
summary
