#!/usr/bin/env bash
# Times the choice of the plan by itself, which no call for C reaches. In a temporary copy of the repository
# it makes `write_plan` of clearing public, hands it on to C, proves and builds that, and runs the bench `choice`.
set -euo pipefail
cd "$(dirname "${BASH_SOURCE[0]}")/../.."
copy=$(mktemp -d)
trap 'rm -rf "$copy"' EXIT

git ls-files -z | xargs -0 cp --parents -pt "$copy"

# A line that the edits below rest on.
expect() {
    grep -qxF "$2" "$copy/$1" || { echo "$1 has no line '$2'" >&2; exit 1; }
}

expect crates/clearing/src/lib.rt 'mod choosing;'
expect crates/clearing/src/choosing.rt 'pub(crate) fn write_plan('
sed -i 's/^pub(crate) fn write_plan($/pub fn write_plan(/' "$copy/crates/clearing/src/choosing.rt"
echo 'pub use choosing::write_plan;' >> "$copy/crates/clearing/src/lib.rt"
printf '%s\n' 'mod choice;' 'pub use choice::swap_write_plan;' >> "$copy/crates/capi/src/lib.rt"
cat > "$copy/crates/capi/src/choice.rt" <<'RATTLE'
// The choice of the plan over filled tables, for C.
ghost use Rattle.std.specs.Prelude.{◌≡◌, ◌*◌, ◌≤◌, T, length};
ghost use Rattle.pool.specs.Limits.{limits_of, limits_fit};
ghost use Rattle.pool.specs.Value.{pool_fits};
ghost use Rattle.clearing.specs.computed.Cleared.{plan_of, plan_written};
ghost use Rattle.clearing.specs.inner.Taking.{TablesHold};
ghost use Rattle.capi.specs.Answers.{pool_from};

use pool::{Limits, Pool};

#[unsafe(no_mangle)]
pub extern "C" fn swap_write_plan(
    places: u8,
    houses: u8,
    gives: &[u16; 14],
    weeks: &[u16; 14],
    lc: u8,
    lp: u8,
    exchanges: &[u16],
    best: &[u32],
    plan: &mut [u8],
) -> usize
    requires value { T (pool_fits (pool_from places houses gives.now weeks.now)) }
    requires limits { T (limits_fit (limits_of lc lp)) }
    requires tables { TablesHold (pool_from places houses gives.now weeks.now) (limits_of lc lp) exchanges.now best.now }
    requires room { 16 * places ≤ length plan.old }
    ensures records { result ≡ length (plan_of (pool_from places houses gives.now weeks.now) (limits_of lc lp)) }
    ensures written { plan.new ≡ plan_written (pool_from places houses gives.now weeks.now) (limits_of lc lp) plan.old }
{
    let sets = *gives;
    let waited = *weeks;
    let value = Pool {
        size: places,
        altruists: houses,
        gives: sets,
        weeks: waited,
    };
    let limits = Limits {
        cycle: lc,
        chain: lp,
    };
    clearing::write_plan(value, limits, exchanges, best, plan)
}
RATTLE

(cd "$copy/crates/capi" && rt lib) >&2
SWAPBOARD_LIB_DIR="$copy/crates/capi/out" cargo bench --offline --manifest-path tests/Cargo.toml --features choice --bench choice
