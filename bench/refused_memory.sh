#!/bin/sh
# Refuses memory to a script over stores in memory, by `rt try --test --fail-alloc N`: one allocation of the run, then a later one alone, and so on, until the run needs no more. A run that was refused memory must end with status 6,
# write whole replies of the script and no others but `memory` at the end, and leave what a new run lists after as many commands as were answered, or one more; a run that ends otherwise must be the whole one. It is tried without proofs, on a copy of
# the crates with one more that has the one test. Each number builds the test anew, which takes a minute or more.
# It is no part of the gate. Run it at the top of the repository.
# Arguments: the number of the first allocation that is refused (default 1), and by how much it rises (default 1).
set -eu
number=${1:-1}
step=${2:-1}
work=$(mktemp -d)
trap 'rm -rf "$work"' EXIT
tar --exclude=out -cf - crates crates.txt HANDLES | tar -xf - -C "$work"
crate="$work/crates/refused_memory"
mkdir -p "$crate/src"
echo 'refused_memory: cell_world plain_model script_shell world_memory' >> "$work/crates.txt"
cat > "$crate/src/lib.rt" <<'RATTLE'
//! A run that may be refused memory.
#![tactic(auto)]

#[cfg(test)]
mod refused {
    use cell_world::locations::Location;
    use cell_world::outside::World;
    use plain_model::finish::RunStatus;
    use script_shell::shell::run_script;
    use std::alloc::Global;
    use std::test::Fail;
    use world_memory::source::MemorySource;
    use world_memory::world::MemoryWorld;

    /// Each command, and what `list m` answers after it.
    const STEPS: [(&str, &str); 6] = [
        ("map m range int\n", "mappings 0\n"),
        ("shard m s/a\n", "mappings 0\n"),
        ("shard m s/b\n", "mappings 0\n"),
        ("add m 0 10 s/a\n", "mappings 1\n0 10 s/a online\n"),
        ("offline m 4\n", "mappings 1\n0 10 s/a offline\n"),
        ("move m 4 s/b\n", "mappings 1\n0 10 s/b offline\n"),
    ];

    fn location(text: &[u8]) -> Result<Location, Fail> {
        Ok(Location::read(text).ok_or("a location")?)
    }

    fn run(alloc: Global, world: MemoryWorld, script: Vec<u8>) -> (RunStatus, MemoryWorld) {
        let mut source = MemorySource::new(script);
        let (finish, world) = run_script(alloc, &Vec::new(alloc), world, &mut source);
        (finish.status, world)
    }

    /// What is listed after so many commands.
    fn listed(done: usize) -> &'static [u8] {
        if done == 0 { b"no-map\n" } else { STEPS[done - 1].1.as_bytes() }
    }

    /// Stops the test where this isn't so: that is no failing of the test, but a fault of the program.
    fn must(so: bool) {
        if !so {
            unreachable!();
        }
    }

    #[test]
    fn memory_is_refused(rt: HostRuntime) -> Result<(), Fail> {
        let alloc = rt.alloc();
        let world = MemoryWorld::new(alloc, &[location(b"s/a")?, location(b"s/b")?])?;
        let mut script: Vec<u8> = Vec::new(alloc);
        let mut replies: Vec<u8> = Vec::new(alloc);
        for step in &STEPS {
            script.extend_from_slice(step.0.as_bytes())?;
            replies.extend_from_slice(b"ok\n")?;
        }
        let (status, world) = run(alloc, world, script);
        must(status == RunStatus::Done || status == RunStatus::Memory);
        let output = world.output(alloc)?;
        // the last line may tell of it
        let told = output.as_slice().ends_with(b"memory\n");
        let end = if told { output.len() - 7 } else { output.len() };
        let written = &output[..end];
        must(!told || status == RunStatus::Memory);
        must(written.len() % 3 == 0 && replies.as_slice().starts_with(written));
        let answered = written.len() / 3;
        must(status == RunStatus::Memory || answered == STEPS.len());
        let left = world.crashed(alloc, world.moment())?;
        let (again, left) = run(alloc, left, b"list m\n".to_vec(alloc)?);
        if again == RunStatus::Memory {
            return Err(Fail::from("a new run was refused memory"));
        }
        let list = left.output(alloc)?;
        let more = (answered + 1).min(STEPS.len());
        must(list.as_slice() == listed(answered) || list.as_slice() == listed(more));
        if status == RunStatus::Memory {
            return Err(Fail::from("the run was refused memory"));
        }
        Ok(())
    }
}
RATTLE
cd "$crate"
tried=0
while :; do
    rt try --test --fail-alloc "$number" > "$work/said" 2>&1 || true
    if grep -q '^test refused::memory_is_refused ... ok$' "$work/said"; then break; fi
    # a test that fails was refused memory, and was right; one that stops was wrong
    grep -q 'the test failed: its result gives status 1$' "$work/said" || { echo "refused_memory: allocation $number:" >&2; cat "$work/said" >&2; exit 1; }
    tried=$((tried + 1))
    number=$((number + step))
done
echo "refused_memory: $tried numbers were tried, none of which ended as it must not; all allocations, with those of the set-up and of the new run, are before number $number"
