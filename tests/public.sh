#!/bin/sh
# tests/public.sh: a public call asks nothing of its caller. Each of those named here has to be there, with an `ensures` and
# no `requires`; crate `capi` shows nothing else than such calls, and `capi_c` shows them to C with the same parameters and the same
# clauses. `tests/public.sh --list` names them.
set -eu
unset CDPATH
cd "$(dirname "$0")/.."
failed=0

# The public calls: a crate, and their names. Those of `capi` and `capi_c` are in the header.
public() {
    cat <<'END'
geometry point_point_distance point_line_distance point_circle_distance point_cylinder_distance
grid_search new
rows insert check_library
strike strike
search search
listing search_on search_on_place
listing search_on_line search_on_circle search_on_cylinder
listing search_on_plane_xy search_on_plane_yz search_on_plane_xz
directory build look_up
directory_insert insert
directory_strike strike
directory_search search
directory_list search_on search_on_place
files sheet_of_file part_length part_of marks_answer input_of said_of
survey_import import
survey_export export
grid_cells new
cell_search search
mesh new
mesh_view grid_cells search_in search build
END
    for crate in capi capi_c; do
        # shellcheck disable=SC2046
        echo $crate $(sed -n 's/^uint64_t \(gemlab_[a-z_]*\)(.*/\1/p' include/gemlab.h)
    done
}

# For tests/believed.sh: a line for each, crate and name.
if [ "${1:-}" = --list ]; then
    public | awk '{ for (i = 2; i <= NF; i++) print $1, $i }'
    exit
fi

# A line for each public function in these files: its name, and what stands in front of its body, `requires` or `ensures`; with
# `whole=1` all that stands in front of its body, with a space for each gap and none at a bracket.
contracts() {
    awk '
        function clauses(text,    c, said, kind, named, depth, all) {
            all = text
            while (text != "") {
                if (match(text, /^[A-Za-z_0-9]+/)) {
                    # `requires`, and the name that a clause may have
                    if (substr(text, 1, RLENGTH) ~ /^(requires|ensures)$/) {
                        kind = substr(text, 1, RLENGTH)
                        named = 0
                    } else if (named++) {
                        kind = ""
                    }
                    text = substr(text, RLENGTH + 1)
                    continue
                }
                c = substr(text, 1, 1)
                text = substr(text, 2)
                if (c == "{") {
                    if (depth == 0 && kind == "")
                        break
                    if (depth++ == 0)
                        said = said " " kind
                } else if (c == "}") {
                    depth--
                }
                if (c !~ /[* \t\n]/)
                    kind = ""
            }
            if (whole) {
                said = substr(all, 1, length(all) - length(text) - 1)
                gsub(/[ \t\n]+/, " ", said)
                gsub(/,? ?\) ?/, ")", said)
                gsub(/ ?\( ?/, "(", said)
            }
            return said
        }
        function scan(    name) {
            while (match(all, /pub +(extern +"C" +)?fn +[A-Za-z_0-9]+/)) {
                name = substr(all, RSTART, RLENGTH)
                sub(/.* /, "", name)
                all = substr(all, RSTART + RLENGTH)
                print name clauses(all)
            }
            all = ""
        }
        FNR == 1 { scan() }
        { sub(/\/\/.*/, ""); all = all $0 "\n" }
        END { scan() }
    ' "$@"
}

# asks_nothing CRATE FUNCTION..
asks_nothing() {
    crate=$1
    shift
    contracts crates/"$crate"/src/*.rt >"$work/contracts"
    for name; do
        grep "^$name\( \|\$\)" "$work/contracts" >"$work/here" || {
            echo "public: $crate: no $name" && failed=1
        }
        while read -r _ said; do
            case " $said " in
            *' requires '*) echo "public: $crate: $name asks something of its caller" && failed=1 ;;
            *' ensures '*) ;;
            *) echo "public: $crate: $name promises nothing" && failed=1 ;;
            esac
        done <"$work/here"
    done
}

work=$(mktemp -d)
trap 'rm -rf "$work"' EXIT

# What this looks at, on an example.
cat >"$work/example.rt" <<'END'
pub fn on_one_line(x: u64) -> u64 {
    x
}
// pub fn in_a_comment() requires { x }
fn private(x: u64) -> u64
    requires { x < 5 }
    ensures { result ≡ x }
{
    x
}
pub fn asks<'a>(x: &'a [u64]) -> u64
    requires some { 0 < length x.now }
    requires few { length x.now < 5 }
    ensures { result ≡ 0 } {
    0
}
impl X {
    pub fn promises(self) -> u64 ensures same { cond { result } { 0 } } {
        // requires {
        self.requires
    }
}
#[unsafe(no_mangle)]
pub extern "C" fn to_c(
    x: u64,
    y: &(u64),
) -> u64
    ensures {
        result ≡ (x)
    }
{
    X { requires: x }.requires
}
pub fn promises(x: u64)
{
}
END
cat >"$work/expected" <<'END'
on_one_line
asks requires requires ensures
promises ensures
to_c ensures
promises
END
contracts "$work/example.rt" | diff "$work/expected" - || {
    echo "public: an example is read otherwise" && failed=1
}
echo 'to_c(x: u64, y: &(u64))-> u64 ensures { result ≡(x)}' >"$work/expected"
contracts whole=1 "$work/example.rt" | grep '^to_c' | sed 's/ *$//' | diff "$work/expected" - || {
    echo "public: an example is read otherwise" && failed=1
}

while read -r crate names; do
    # shellcheck disable=SC2086
    asks_nothing "$crate" $names
done <<END
$(public)
END
for crate in capi capi_c; do
    others=$(contracts crates/$crate/src/*.rt | sed 's/ .*//' | grep -v '^gemlab_' || :)
    shown=$(contracts crates/$crate/src/*.rt | grep -c '^gemlab_')
    if [ -n "$others" ] || [ "$(public | sed -n "s/^$crate //p" | wc -w)" -ne 20 ] || [ "$shown" -ne 20 ]; then
        echo "public: $crate shows other calls than the twenty of its header: $shown, and $others" && failed=1
    fi
    contracts whole=1 crates/$crate/src/*.rt | LC_ALL=C sort >"$work/$crate"
done
diff "$work/capi" "$work/capi_c" || {
    echo "public: capi_c shows other parameters or clauses to C than capi has" && failed=1
}
for file in crates/capi_c/src/*.rt; do
    exports=$(grep -c '^#\[unsafe(no_mangle)\]$' "$file" || :)
    calls=$(grep -c '^pub extern "C" fn gemlab_' "$file" || :)
    [ "$exports" -eq "$calls" ] || {
        echo "public: $file shows $calls calls, and exports $exports" && failed=1
    }
done
[ "$failed" -eq 0 ] && echo "public: every public call promises something and asks nothing"
exit $failed
