//! What is read and copied of an `Env`, whose parts are private to symbols.rs: this module stands inside of it.
use super::*;

pub fn copy(env: &Env) -> Env {
    assert!(env.ctor_calls.is_empty());
    let scopes = env.scopes.iter().map(|scope| Scope { decls: scope.decls.clone(), next_idx: scope.next_idx });
    Env { scopes: scopes.collect(), next_global_idx: env.next_global_idx, ctor_calls: Vec::new(), loop_depth: env.loop_depth }
}

/// The walk's next global, also where a panic stopped it.
pub fn next_global(env: &Env) -> u32 {
    env.next_global_idx
}

/// The visible names of a session, whose one scope is the outermost.
pub fn visible(env: &Env) -> Vec<(String, Decl)> {
    assert_eq!(env.scopes.len(), 1);
    env.scopes[0].decls.iter().map(|(name, decl)| (name.clone(), *decl)).collect()
}

/// How many declarations an accepted entry lays over: it is walked once more, on copies, and the scopes that it leaves are
/// counted.
pub fn laid_over(mut prog: Program, env: Env, unit_key: &str) -> usize {
    let mut env = Env { next_global_idx: prog.num_globals, loop_depth: 0, ..env };
    let mut unit = prog.units[unit_key].clone();
    assert!(unit.resolve_repl_syms(&mut prog, &mut env).is_ok());
    env.scopes[1..].iter().map(|scope| scope.decls.len()).sum()
}
