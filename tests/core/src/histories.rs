//! What the definitions say of one small history.

ghost use Rattle.std.specs.Prelude.{◌≡◌, ℕ, List, [], ◌∷◌, Some, length};
ghost use Rattle.sm_ownership.specs.declared.entry.Ending.{Ending};
ghost use Rattle.sm_ownership.specs.declared.entry.Ending.TheVariants.{Nothing, Request, Checkpoint};
ghost use Rattle.sm_ownership.specs.declared.entry.Entry.{Entry};
ghost use Rattle.sm_ownership.specs.declared.entry.Kind.TheVariants.{Done};
ghost use Rattle.sm_ownership.specs.History.{all_of, first_of, kept, said};

use std::test::Fail;

// Shard 0 has two requests, a checkpoint, an end with nothing and a third request; shard 1 has one request.
fn keeps_since_the_checkpoint()
    ensures { let ended : ℕ → Ending ℕ → Entry ℕ = λ shard ending. record { actor = 1; shard = shard; kind = Done ending } in
        let history : List (Entry ℕ) = ended 0 (Request 10) ∷ ended 1 (Request 20) ∷ ended 0 (Request 11) ∷ ended 0 Checkpoint
        ∷ ended 0 Nothing ∷ ended 0 (Request 12) ∷ [] in
        (all_of history 0 ≡ 10 ∷ 11 ∷ 12 ∷ []) × (first_of history 0 ≡ 2) × (kept history 0 ≡ 12 ∷ [])
        × (said (λ before request. length before) history 0 2 ≡ Some 2)
        × (first_of history 1 ≡ 0) × (kept history 1 ≡ 20 ∷ []) }
{}

#[test]
fn keeps_what_came_since_the_checkpoint(_rt: HostRuntime) -> Result<(), Fail> {
    keeps_since_the_checkpoint();
    Ok(())
}
