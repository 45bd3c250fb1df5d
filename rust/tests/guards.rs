//! What the compiler refuses to do with guards: a program that would leave a span in another thread than it was entered
//! in, or would use a guard without its span, is no program.
#[path = "common/compiling.rs"]
mod compiling;

use compiling::Compiling;

/// A program, with `LINE` for what is wrong in one and right in the other: the right one, the wrong one, and what the
/// compiler has to say of it. So it is refused for nothing else.
struct Case {
    program: &'static str,
    right: &'static str,
    wrong: &'static str,
    said: &'static str,
}

const CASES: [Case; 10] = [
    Case {
        program: r#"let outer = span!(r, Level::Info, "outer");
            let inside;
            { let inner = span!(r, Level::Info, "inner"); LINE }
            drop(inside);"#,
        right: "inside = outer.enter();",
        wrong: "inside = inner.enter();",
        said: "`inner` does not live long enough",
    },
    Case {
        program: r#"let span = span!(r, Level::Info, "a");
            let inside = span.enter();
            LINE"#,
        right: "drop(inside); drop(span);",
        wrong: "drop(span); drop(inside);",
        said: "cannot move out of `span` because it is borrowed",
    },
    Case {
        program: r#"let span = span!(r, Level::Info, "a");
            let inside = span.enter();
            std::thread::scope(|threads| { LINE });"#,
        right: "drop(inside);",
        wrong: "threads.spawn(move || drop(inside));",
        said: "`*const ()` cannot be sent between threads safely",
    },
    Case {
        program: r#"let span = span!(r, Level::Info, "a");
            let inside = span.enter();
            std::thread::scope(|threads| { LINE });"#,
        right: "threads.spawn(|| span.id()); inside.is_first();",
        wrong: "threads.spawn(|| inside.is_first());",
        said: "`*const ()` cannot be shared between threads safely",
    },
    Case {
        program: r#"let span = span!(r, Level::Info, "a");
            let inside = LINE;
            drop(span); drop(inside);"#,
        right: "span.clone().entered()",
        wrong: "span.entered()",
        said: "use of moved value: `span`",
    },
    Case {
        program: r#"let span: &Span;
            let outer = span!(r, Level::Info, "outer");
            { let inside = span!(r, Level::Info, "inner").entered(); LINE }
            span.id();"#,
        right: "span = &outer;",
        wrong: "span = &inside;",
        said: "`inside` does not live long enough",
    },
    Case {
        program: r#"let inside = span!(r, Level::Info, "a").entered();
            LINE"#,
        right: "inside.is_first(); inside.exit();",
        wrong: "inside.exit(); inside.is_first();",
        said: "borrow of moved value: `inside`",
    },
    Case {
        program: r#"let inside = span!(r, Level::Info, "a").entered();
            std::thread::spawn(LINE);"#,
        right: "{ let span = inside.exit(); move || drop(span) }",
        wrong: "move || drop(inside)",
        said: "`*const ()` cannot be sent between threads safely",
    },
    Case {
        program: r#"let inside = span!(r, Level::Info, "a").entered();
            let span: &Span = &inside;
            std::thread::scope(|threads| { threads.spawn(LINE); });"#,
        right: "|| span.id()",
        wrong: "|| inside.id()",
        said: "`*const ()` cannot be shared between threads safely",
    },
    // The future of a task may go on in another thread.
    Case {
        program: r#"fn is_send<T: Send>(_: T) {}
            let span = span!(r, Level::Info, "a");
            is_send(async move { LINE; std::future::ready(()).await; });"#,
        right: "drop(span.enter())",
        wrong: "let _inside = span.enter()",
        said: "future cannot be sent between threads safely",
    },
];

#[test]
fn a_guard_stays_in_its_thread_and_with_its_span() {
    let Some(compiling) = Compiling::new("guards") else {
        return;
    };
    for Case {
        program,
        right,
        wrong,
        said: wanted,
    } in CASES
    {
        let (is_right, said) = compiling.said_of(&program.replace("LINE", right));
        assert!(is_right, "{program} with {right}\n{said}");
        let (is_right, said) = compiling.said_of(&program.replace("LINE", wrong));
        assert!(!is_right && said.contains(wanted), "{program} with {wrong}\n{said}");
    }
}
