//! Recipes with known answers, from the text to the output: those proved of the definition, those of examples/, those of the change
//! requests, those of document 01 that are none of these, and or, or2 and divide of document 002 as rules.

use compare::filing::file;
use compare::{deep, ellipses, refusal};
use inputs::{in_stack, rows};
use reference::text;

#[test]
fn proved_rows() {
    for (recipe, fuel, output) in rows::outputs() {
        assert_eq!(file(recipe.as_bytes(), fuel), output, "{recipe}");
    }
    for (recipe, fuel, (ground, steps, sum, words)) in rows::expansions() {
        let items = text::read(recipe.as_bytes()).expect(&recipe).words();
        let (work, core) = grebetallboy::table_words(items.len() / 3, fuel);
        let (mut work, mut core) = (vec![3; work], vec![3; core]);
        match grebetallboy::expand(&items, fuel, &mut work, &mut core) {
            Ok(run) => assert_eq!((0, run.steps, run.sum, &core[..run.length]), (ground, steps, sum, &words[..]), "{recipe}"),
            Err(error) => {
                let refused = refusal(error);
                assert_eq!((refused.ground, refused.steps, refused.sum), (ground, steps, sum), "{recipe}");
            }
        }
    }
}

const LIST: &str = "(list) (let-syntax ((l (syntax-rules () ((_ (a b) ...) (list (list b a) ...)))))";
const CASES: &str = "() (let-syntax ((c (syntax-rules (else) ((_ else) 1) ((_ x) 2))))";
const OR: &str = "() (letrec-syntax ((or (syntax-rules () ((_) #f) ((_ e) e) ((_ e1 e2 e3 ...) ((lambda (t) (if t t (or e2 e3 ...))) e1)))))";

#[test]
fn of_the_papers() {
    let rows = [
        (format!("{LIST} (l (1 2) (3 4)))"), "accepted 1 19\n(o0 (o0 2 1) (o0 4 3))\n"),
        (format!("{LIST} (l))"), "accepted 1 3\n(o0)\n"),
        (format!("{CASES} (c else))"), "accepted 1 1\n1\n"),
        (format!("{CASES} (lambda (else) (c else)))"), "accepted 1 1\n(lambda (v0.else) 2)\n"),
        (format!("{CASES} (c other))"), "accepted 1 1\n2\n"),
        // or2 and or of document 002: a private t, and the curator's
        (
            "() (let-syntax ((or2 (syntax-rules () ((_ e1 e2) ((lambda (t) (if t t e2)) e1))))) (lambda (t) (or2 #f t)))".to_string(),
            "accepted 1 21\n(lambda (v0.t) ((lambda (v1.t) (if v1.t v1.t v0.t)) #f))\n",
        ),
        (format!("{OR} (lambda (t) (or #f t)))"), "accepted 2 26\n(lambda (v0.t) ((lambda (v1.t) (if v1.t v1.t v0.t)) #f))\n"),
        (
            format!("{OR} (lambda (t) (or 1 2 t)))"),
            "accepted 3 53\n(lambda (v0.t) ((lambda (v1.t) (if v1.t v1.t ((lambda (v2.t) (if v2.t v2.t v0.t)) 2))) 1))\n",
        ),
        // divide of document 002: the inserted name refers to the outer binding
        (
            "(+ *) ((lambda (over) (let-syntax ((divide (syntax-rules () ((_ a b) (over a b))))) ((lambda (over) (divide 6 3)) *))) +)"
                .to_string(),
            "accepted 1 7\n((lambda (v0.over) ((lambda (v1.over) (v0.over 6 3)) o1)) o0)\n",
        ),
    ];
    for (recipe, output) in rows {
        assert_eq!(reference::file(recipe.as_bytes(), 512), output, "{recipe}");
        assert_eq!(file(recipe.as_bytes(), 512), output, "{recipe}");
    }
}

/// Steps that are not made.
#[test]
fn no_step() {
    let rows = [("((_ a) a)", "(m 1 2)", 16), ("((_ a ... ...) 1)", "(m)", 15), ("((_ a) (1 ...))", "(m 1)", 15)];
    for (rule, used, ground) in rows {
        let recipe = format!("() (let-syntax ((m (syntax-rules () {rule}))) {used})");
        assert_eq!(file(recipe.as_bytes(), 512), format!("refused {ground} 0 0\n"), "{recipe}");
    }
    let recipe = "() (let-syntax ((m (lambda () ((_ a) 1)))) (m 1))";
    assert_eq!(file(recipe.as_bytes(), 512), "refused 15 0 0\n");
}

/// The widest recipes that the filing program and reading take.
#[test]
fn limits() {
    for (elements, ground) in [(84, 11), (85, 9)] {
        let recipe = format!("() (f{})", " 1".repeat(elements - 3));
        assert_eq!(file(recipe.as_bytes(), 512), format!("refused {ground} 0 0\n"));
    }
    for (elements, ground) in [(2_047, 9), (2_048, 6)] {
        let recipe = format!("() (f{})", " 1".repeat(elements - 3));
        assert_eq!(file(recipe.as_bytes(), 512), format!("refused {ground} 0 0\n"));
    }
}

#[test]
fn examples() {
    for (recipe, output) in rows::examples() {
        assert_eq!(file(&recipe, 512), output, "{}", String::from_utf8_lossy(&recipe));
    }
}

/// What both expanders answer for a table with the most fuel: ground, steps, and the term's words.
fn both(items: &[u32]) -> (u32, u32, Vec<u32>) {
    let (work, core) = grebetallboy::table_words(items.len() / 3, 8_192);
    let run = in_stack(256 << 20, || reference::expand::run(items, 8_192, work, core));
    let (mut work, mut core) = (vec![3; work], vec![3; core]);
    let (ground, steps, sum, length) = match grebetallboy::expand(items, 8_192, &mut work, &mut core) {
        Ok(own) => (0, own.steps, own.sum, own.length),
        Err(error) => {
            let refused = refusal(error);
            (refused.ground, refused.steps, refused.sum, 0)
        }
    };
    assert_eq!((ground, steps, sum, &core[..length]), (run.outcome.err().unwrap_or(0), run.steps, run.sum, &run.core[..]));
    (ground, steps, run.core)
}

/// A name on which hundreds of joined wraps wait, bound and referred to.
#[test]
fn many_wraps() {
    let (ground, steps, core) = both(&deep::many_wraps());
    assert_eq!((ground, &core[..]), (0, &[7, 0, 1, 21, 0, 0][..]), "(lambda (v0.y) v0.y)");
    assert!(steps > 800, "{steps} steps");
}

/// Two names with as many marks, of which one differs: more than a small table of marks has room for, and many more.
#[test]
fn many_marks() {
    for rounds in [1, 2, 10] {
        let answer = |body: &str| both(&deep::many_marks(rounds, body));
        let (ground, steps, core) = answer("(lambda (x) (lambda (y) (f x y)))");
        let t = core[3];
        let known = [7, 0, 1, t, 7, 1, 1, t, 8, 2, 1, 0, 0, 0, 0, 1];
        assert_eq!((ground, &core[..]), (0, &known[..]), "(lambda (v0.t) (lambda (v1.t) (o0 v0.t v1.t)))");
        assert!(steps as usize > 32 * rounds, "{steps} steps");
        assert_eq!(answer("(lambda (x y) y)").2, [7, 0, 2, t, t, 0, 1], "(lambda (v0.t v1.t) v1.t)");
        assert_eq!(answer("(lambda (x x) y)").0, 14);
        assert_eq!(answer("(lambda (x) y)").0, 11);
    }
}

/// Sixteen ellipses over one another, whose copies nobody could count one by one: 17 goes before 18 all the same.
#[test]
fn nested_ellipses() {
    for (recipe, ground) in [(ellipses::one_list(16), 18), (ellipses::own_lists(16), 18), (ellipses::last_differs(16), 17)] {
        let items = text::read(recipe.as_bytes()).expect(&recipe).words();
        assert_eq!(both(&items), (ground, 0, Vec::new()), "{recipe}");
    }
    assert_eq!(both(&deep::nested_ellipses(64, 1_800)), (18, 0, Vec::new()));
}

#[test]
fn of_the_requests() {
    for (name, recipe, output) in rows::requests() {
        assert_eq!(file(recipe.as_bytes(), 512), output, "{name}: {recipe}");
    }
}

/// The ends of the range, and around each power of ten, both signs.
fn numbers() -> Vec<i32> {
    let around = |power: i64| [power - 1, power, power + 1, 4 * power - 1, 4 * power, 9 * power, 1 - power, -power, -power - 1];
    let near = (1..10).flat_map(|k| around(10i64.pow(k)));
    near.filter_map(|n| i32::try_from(n).ok()).chain([0, 5, -5, i32::MIN, i32::MAX]).collect()
}

#[test]
fn digits() {
    for n in numbers() {
        assert_eq!(file(format!("() {n}").as_bytes(), 512), format!("accepted 0 0\n{n}\n"));
    }
}

/// The same digits with a dot before the last of them.
#[test]
fn decimals() {
    for n in numbers() {
        for places in 1..=4 {
            let digits = format!("{:0count$}", n.unsigned_abs(), count = places + 1);
            let (whole, part) = digits.split_at(digits.len() - places);
            let text = format!("{}{whole}.{part}", if n < 0 { "-" } else { "" });
            assert_eq!(reference::file(format!("() {text}").as_bytes(), 512), format!("accepted 0 0\n{text}\n"));
            assert_eq!(file(format!("() {text}").as_bytes(), 512), format!("accepted 0 0\n{text}\n"));
        }
    }
}
