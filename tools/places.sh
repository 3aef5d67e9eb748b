#!/bin/sh
# Lists the lines of the sources at which a form of the older language may stand, by kind of form. What it prints are
# candidates: docs/DESIGN-PASS.md says which of them are places.
# Called at the top of the repository: tools/places.sh [KIND], with KIND 1 to 8; without one, the number of lines of each.
list() {
    case $1 in
    1) grep -rnE --include='*.rt' '^ *(pub(\(crate\))? )?enum |(kind|next|exchange|flags|markers): (u8|usize)|\(u8, u8\)|fn \w+\(kind: u8|(push_payload|is_bare|bare_body)\([^)]*\b[0-9]+|return None;|None => (None|return)|None => Err|Err\(_\) => |Err\((error|refusal)\) => |Some\(\w+\) => Ok\(\w+\),|Err\(Stop::Wrong' crates/*/src ;;
    2) grep -rnE --include='*.rt' '^ *(pub(\(crate\))? )?(const )?fn |^ *(pub(\(crate\))? )?(struct|enum) ' crates/*/src ;;
    3) grep -rnE --include='*.rt' '^ *for .* in .*\.\.|^ *(while|loop) |\+= 1;|saturating_add\(1\)' crates/*/src ;;
    4) grep -rnE --include='*.rt' 'fn (number|of|new|nonce|same|equal|precedes|exchange_of|flags_of|of_type|is_opening|exchanges|mirrors|side_name|read_state|read_beginner|read_kind|read_direction|side|from_hex|to_hex|fmt)\b|impl.* (From|TryFrom|Display|Debug|PartialEq|Ord|Default)\b.* for |fmt::(Display|Debug) for |const (EMPTY|BLANK)' crates/*/src ;;
    5) grep -rhoE --include='*.rt' '(requires|ensures) *[a-z_]* *\{.*\}' crates/*/src | sed -E 's/^(requires|ensures) *[a-z_]* *//' | sort | uniq -c | awk '$1 >= 3'
       grep -rhoE --include='*.rt' 'fn \w+(<[^>]*>)?\(.*' crates/*/src | grep -oE '\(.*\)' | sed -E 's/&(mut )?self,? ?//' | grep ',' | sort | uniq -c | awk '$1 >= 3' ;;
    6) grep -rnE --include='*.rt' '^ *(pub )?(\w+): \[.*; *\w+\]|^ *(pub )?(len|count|used): usize|Vec<u8>|\[(0|0u8); ' crates/*/src ;;
    7) grep -rnE --include='*.rt' 'Wanted::|Fate::|Kind::|match (command|kind|fate|exchange)\b|\bdyn |\bFn(Once|Mut)?\(|fn\(' crates/*/src ;;
    8) find crates/*/proofs -name '*.antt' ;;
    esac
}
if [ $# -gt 0 ]; then
    list "$1"
else
    for kind in 1 2 3 4 5 6 7 8; do
        echo "$kind: $(list $kind | wc -l)"
    done
fi
