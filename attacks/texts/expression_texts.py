"""Texts of expressions, by title. `\n`, `\r`, `\t` are written as signs in the tables."""

LEVELS = ["||", "&&", "<=", "+", "-", "*"]
RELOPS = ["<", "<=", ">", ">=", "==", "!=", "in"]

EXPRESSIONS = [
    ("literals", [
        "true", "false", "0", "1", "007", "9223372036854775807", '""', '"a"', '"a b"', '"// no comment"', '"Zoë 😀"',
    ]),
    ("numbers with a minus", [
        "-1", "- 1", "-0", "-9223372036854775808", "--9223372036854775808", "--1", "---1", "----1", "-(1)", "-(-1)", "(-1)", "((-1))",
        "-1.a", "-1[\"a\"]", "-1.f()", "(-1).a", "(-1)[\"a\"]", "(-1).contains(1)", "--1.a", "- - 1", "-9223372036854775807",
        "1 - 1", "1-1", "1 - -1", "1--1", "1 - - - 1", "-1 - -1", "-1 * -1", "-1 + 1", "-1 has a", "-1 is T", "-1 == 1", "!(-1 == 1)",
        "-context.n", "-(context.n)", "(-context).n", "-context.n * 3", "-\"a\"", "-true", "-f()", "-[]", "-{}", "-User::\"a\"",
    ]),
    ("signs", [
        "!true", "!!true", "!!!true", "!!!!true", "! ! true", "!(!true)", "!(!(!(!(!true))))", "!context.a", "!context.a.b == true",
        "!principal in resource", "!(principal in resource)", "!1", "!context has a", "!context.f(1)", "!\"a\"", "!!context[\"a b\"]",
        "--context.n", "----context.n", "!(-1)", "-(!1)", "!principal && !action || !resource", "!(-context.n)",
    ]),
    ("variables and entities", [
        "principal", "action", "resource", "context", 'User::"a"', 'User::"alice"', 'A::B::"x"', 'A::B::C::D::"x"', 'A :: B :: "x"', 'User::""',
        'User::"a\\"b"', 'Action::"view all"', 'permit::"a"', 'forbid::when::unless::"a"', 'principal::"a"', 'context::action::resource::"a"',
        '_::"a"', '_a1::B_2::"a"', 'principal::B::"a"',
    ]),
    ("escapes", [
        r'"\n\r\t\0\\\'\""', r'"\x00\x41\x7F\x7f"', r'"\u{0}\u{41}\u{7F}\u{e9}\u{1F600}\u{10FFFF}"', r'"\u{000041}"', r'"a\\"', r'"\\\\"', r'"\"\""',
        '"it\'s"', "\"a\nb\"", "\"a\tb\"", '"*"', '"a*b"', r'context["\u{61}\n"]', r'{"\u{61}": 1}', r'User::"\x41"', r'"\u{d7ff}\u{e000}"',
        r'context has "\""',
    ]),
    ("patterns", [
        'context.s like ""', 'context.s like "*"', 'context.s like "a*"', 'context.s like "*a*b*"', r'context.s like "\*"', r'context.s like "a\*b*"',
        r'context.s like "\\*"', r'context.s like "\\\*"', r'context.s like "\"*\""', r'context.s like "\x2a*"', r'context.s like "\u{2a}*"',
        'context.s like "**"', '"a" like "a"', r'context.s like "\n*\t"', 'context.s like "é*😀"', '1 + 2 like "*"', '-context.s like "*"',
    ]),
    ("has", [
        "context has a", 'context has "a"', 'context has "a b"', 'context has ""', 'context has "if"', "context has a.b", "context has a.b.c.d",
        "context has principal", "context has permit.when", "context.a has b", "context.a has b.c", "1 + 2 has a", "-context has a", "[] has a",
        "{} has a", 'User::"a" has name.first', "(context has a) == true", "context has a && context.a > 1", "context has a || context has b.c",
        "if context has a.b then 1 else 2", "context has a . b", 'context has "a.b"', "context has _", "context has contains",
    ]),
    ("is", [
        "principal is User", "principal is A::B", "principal is A::B::C", "principal is principal", 'principal is User in Group::"g"',
        "principal is A::B in resource", "principal is User in [resource, action]", "principal is User in context.g + 1", "(principal is User) == true",
        "principal is User && resource is Photo", "principal is User in resource && true", "context.a.b is T", "1 + 2 is T", "-context is T",
        "principal is User in -context.x * 2", "principal is User in (if true then action else resource)", '(principal is User) in resource',
        "(principal is User in resource) in context.y", "principal is User || action is Action", "context.x is T in context.x", "principal is when",
    ]),
    ("relations", [f"principal {op} resource" for op in RELOPS] + [f"1{op}2" for op in RELOPS if op != "in"] + [
        "principal in [resource, action]", "(1 < 2) == true", "1 < (2 == 3)", "(1 < 2) != (3 > 4)", "(1 >= 2) >= (3 > 4)", "1 + 2 < 3 * 4", "1 != 2 && 3 > 4 || 5 >= 6",
        "!(1 > 2)", "!(1 != 2)", "-1 > -2", "(principal in action) in resource", "principal in (action in resource)",
    ]),
    ("levels", [f"context.a {p} context.b {q} context.c" for p in LEVELS for q in LEVELS if not (p == "<=" and q == "<=")] + [
        "1 + 2 * 3 - 4", "1 * 2 + 3 * 4", "1 - 2 - 3", "1 - (2 - 3)", "(1 + 2) * 3", "1 * (2 + 3)", "((1) + 2)", "(((1)))", "1 - 2 + 3 - 4", "2 * 3 * 4 * 5",
        "true || false && true", "(true || false) && true", "true && false || true && false", "true && (false || true)", "true || (false || true)",
        "true && (false && true)", "1 + 2 == 3 && 4 * 5 < 6 || !true", "1 + -2 * --context.n", "!true == false", "(1 + 2 < 3) || true",
    ]),
    ("conditionals", [
        "if true then 1 else 2", "if true then if false then 1 else 2 else 3", "if true then 1 else if false then 2 else 3", "if if true then false else true then 1 else 2",
        "if true then 1 else 2 + 3", "(if true then 1 else 2) + 3", "if true || false then 1 && 2 else 3 == 4", "1 + (if true then 1 else 2)",
        "!(if true then true else false)", "(if true then principal else resource).a", "if principal in action then [1, -2, - 3] else {a: 1}",
        "true && (if true then true else false)", "[if true then 1 else 2, if false then 3 else 4]", "{a: if true then 1 else 2}", "f(if true then 1 else 2)",
        "if context has a then context.a == 1 else false || true", "if(true)then(1)else(2)", "if true then 1 else 2 == 2",
    ]),
    ("attributes and indices", [
        "principal.a", "principal.a.b.c", "principal . a", 'principal["a"]', 'principal["a b"]["c"]', 'principal["if"]', "context.principal", "context.permit.forbid.when.unless",
        'context.a["b"].c', '"a".b', "1.a", "true.a", "[].a", "{}.a", "{a: 1}.a", '{a: 1}["a"]', 'User::"a".name', 'User::"a"["name"]', "(1 + 2).a", "(true && false).a",
        "(!true).a", "(context has a).b", "((context.a)).b", 'context["a"] has "b"', 'f().a', 'f()["a"]', "context.contains", "context.isEmpty", 'context[""]', "(-context.a).b",
        '1["a"]', "context.principal.action.resource.context",
    ]),
    ("sets", [
        "[]", "[1]", "[1, 2]", "[1, 1]", '[1, "a", true, principal, User::"a"]', "[[]]", "[[[[]]], [1]]", "[1 + 2, 3 * 4]", "[ ]", "[true || false, !true]", "[{a: [1]}]", "[(1)]",
    ]),
    ("records", [
        "{}", "{a: 1}", "{a: 1, b: 2}", "{b: 1, a: 2}", '{"a": 1}', '{"a b": 1, "": 2}', '{"if": 1, "principal": 2}', "{principal: principal, action: action}", "{permit: 1, when: 2}",
        "{a: {b: {c: 1}}}", "{a: [1, {b: 2}]}", "{ }", "{a: 1 + 2, b: 3 && 4}", "{a: if true then 1 else 2, b: (3)}", '{A: 1, a: 2, B: 3, "é": 4, "😀": 5, _: 6, "Z ": 7}', "{a:1}.a.b",
        '{"a": 1, "A": 2}', r'{"\"": 1, "\\": 2}', "{a: 1, aa: 2, ab: 3, b: 4}",
    ]),
    ("calls", [
        "f()", "f(1)", "f(1, 2, 3)", 'decimal("1.5")', 'ip("127.0.0.1")', "A::f()", "A::B::f(1)", "A :: f (1)", "f(g(h()))", "f([1], {a: 2}, principal)", "f(1 + 2, true && false)", "principal(1)",
        "permit(1)", "a::principal(1)", "f(f)(1)" if False else "f(f())", "f((1))", "contains(1, 2)", "isEmpty()", "unknown(\"x\")", "f() == g::h(1)", "f(-1)", "!f(1)", "f(1).g(2)",
    ]),
    ("methods", [
        "[1].contains(1)", "[1, 2].containsAll([1])", "[1].containsAny([2])", "[].isEmpty()", 'principal.getTag("a")', 'principal.hasTag("a")', "principal.getTag(context.t)",
        'ip("1.1.1.1").isIpv4()', 'decimal("1.0").lessThan(decimal("2.0"))', "context.a.contains(1)", "context.a.b.contains(context.c)", "context.f()", "context.f(1, 2, 3)", "context.f().g().h()",
        "context.f(1).g", "context.f(1)[\"g\"]", "f(1).g(2, 3).contains([])", "1.f()", '"a".f("b")', "true.f()", "(1 + 2).f(3 + 4)", "-1.contains(1)", "!context.isEmpty()",
        "[1].contains(1) && [2].contains(3)", "context.x[\"y z\"].contains(1).isEmpty()", "principal.principal()", "context.permit(1)", "User::\"a\".f()", "context . f ( 1 )",
        "principal.hasTag(\"a\") && principal.getTag(\"a\") == 1", "[1].contains(if true then 1 else 2)", "context.is_empty()", "context.unknown(1)",
    ]),
    ("comments and blanks", [
        "1 // one", "// one\n1", "1 // one\n + // plus\n2", "1 +\n\t2\r\n", "  1  ", "1//\n+2", "// a\n// b\n\n1", "1 // a\r+ 2", '"a" // "', "1 /// +\n+ 2", "\u00a01\u3000+\u20282",
        "principal // \"\n.\n// x\na", "true||false", "true&&false", "1+2*3", "a::\n\"b\"", "a // x\n::f(// y\n)", "1 //",
    ]),
    ("whole conditions", [
        'principal == User::"a" && !context.x || resource has a.b',
        'if principal in A::B::"x" then [1, -2, - 3] else {a: 1, "b c": f(1, 2)}',
        'principal in Group::"admins" && (resource.owner == principal || context.mfa == true) && !(resource.tags.contains("secret"))',
        'context.ip.isInRange(ip("10.0.0.0/8")) && context.time >= 900 && context.time < 1700',
        'resource is Photo in Album::"x" && resource.size <= 1024 * 1024 && resource.name like "*.jpg"',
        'principal has department.name && principal.department.name == "R\\u{26}D" || action in [Action::"view", Action::"list"]',
        '{user: principal, what: action}.user == principal && [1, 2, 3].containsAll([context.n, context.n + 1])',
    ]),
]

REFUSED = [
    ("an expression is wanted", [
        "", " ", "// nothing", "1 +", "+ 1", "1 + + 2", "* 1", "&& true", "true &&", "true || ", "(", "()", "( )", "1 * (", "[1, ]", "[1,", "[,]", "f(,)", "f(1,)", "f(1,", "[", "f(", "{a:", "{a: }",
        "{a: , b: 1}", "if", "if then 1 else 2", "if true then else 2", "if true then 1 else", "!", "-", "!!", "1 ==", "== 1", "1 in", "principal is User in", "principal is User in &&", "1 < < 2", "1 - * 2",
        ")", "]", "}", ",", ";", ":", "::", ".", ".a", "@", "then", "else", "in", "has", "like", "is", "principal in in", "[)", "f(]", "context.f(]", "(]", "[}", "::a", '::"a"', "?principal", "?resource", "1 == ?principal", "[?resource]",
        "1 + if true then 1 else 2", "true || if true then true else false", "!if true then true else false", "1 == if true then 1 else 2", "principal is T in if true then 1 else 2", "-if true then 1 else 2", "true && if true then true else true",
        "!-1", "-!1", "!-context.a", "-!context.a", "!!-1", "--!true", "!!!!-1",
    ]),
    ("at most four signs", ["!!!!!true", "-----1", "! ! ! ! ! true", "-----context.n", "1 - -----1", "!!!!!!!!true"]),
    ("an operator or the end is wanted", [
        "1 1", "true false", "1 \"a\"", "(1", "(1 2)", "(1 + 2", "((1)", "1)", "1]", "1}", "1,", "1;", "1 :", "1 ::", "1 @", "1 !", "1 ! 2", "1 {", "1 (", "1(2)", "true(1)", '"a"("b")', "(f)(1)" if False else "(1)(2)", "[1](2)",
        "principal resource", "principal principal", "f() g()", "1 then 2", "1 else 2", "1 if", "a.b" if False else "context.a b", 'User::"a" "b"', 'User::"a"::"b"', "User::\"a\"(1)", "12abc", "1_000", "0x1F", "1a",
        'context has "a".b', 'context has "a"["b"]', 'context has a["b"]', 'context like "a".b', 'context.s like "a"["b"]', 'principal is T.a', 'principal is T["a"]', "principal is T(1)", "principal is T \"a\"", "context has a b",
        "(1, 2)", "(1;", "(1]", "(1}", "(true then", "1 ?principal",
    ]),
    ("relations can't be chained", [f"1 {p} 2 {q} 3" for p, q in [("<", "<"), ("==", "=="), ("==", "!="), ("!=", ">"), (">=", "<="), ("in", "in"), ("in", "=="), ("<", "in")]] + [
        "1 < 2 has a", '1 < 2 like "a"', "1 < 2 is T", "context has a < 1", "context has a == true", "context has a.b == 1", 'context has "a" != 1', "context has a has b", 'context has a like "b"', "context has a is T", "context has a in action",
        'context.s like "a" == true', 'context.s like "a" like "b"', 'context.s like "a" has b', "principal is T == true", "principal is T is U", "principal is T has a", 'principal is T like "a"', "principal is T in action in resource",
        "principal is T in action == true", "principal is T in action is U", "principal is T in action has a", 'principal is T in action like "a"', "context has a + 1", "context has a - 1", "context has a * 1", 'context.s like "a" + 1', 'context.s like "a" - 1',
        "principal is T * 1", "principal is T - 1", "principal is T + 1", "1 + 2 < 3 + 4 < 5", "1 == 2 && 3 == 4 == 5", "[1 == 2 == 3]", "{a: 1 < 2 < 3}", "if 1 == 2 == 3 then 1 else 2", "(1 in 2 in 3)", "!1 == 2 == 3",
    ]),
    ("a name that is no variable", [
        "foo", "foo + 1", "foo.a", "foo[\"a\"]", "1 + foo", "foo == foo", "(foo)", "[foo]", "{a: foo}", "f(foo)", "if foo then 1 else 2", "A::B", "A::B + 1", "A::B.f()", "User", "permit", "when", "unless 1", "forbid == 1", "Principal", "PRINCIPAL", "_",
        "principal::a", "principal::action", "foo bar", "foo {", "!foo", "-foo", "'a'" if False else "foo \"a\"", "foo has a", "null", "not true",
    ]),
    ("behind `::`", ["A::", "A::1", "A::B::", "A::B::(", "A::if", "A::true::\"a\"", "A:: + 1", "A::[1]", "A::::B", "User::in", "User::'a'", "A::B::is"]),
    ("an attribute", [
        "principal.", "principal.1", "principal.if", "principal.\"a\"", "principal..a", "principal.(a)", "principal.in", "principal.has", "principal.true", "context has", "context has 1", "context has if", "context has a.", "context has a.1",
        "context has a.\"b\"", "context has a.is", "context has (a)", "context has [a]", "context has a..b", "{1: 2}", "{if: 1}", "{true: 1}", "{(a): 1}", "{a: 1, }", "{a: 1,", "{a: 1,, b: 2}", "{,}", "{", "{a: 1, 2}", "{principal.a: 1}" if False else "{-a: 1}", "{is: 1}",
        "{?principal: 1}",
    ]),
    ("a text in quotes", ["principal[", "principal[]", "principal[1]", "principal[a]", "principal[principal]", "principal[\"a\"][b]", "context.s like", "context.s like 1", "context.s like context.p", "context.s like (\"a\")", "context.s like foo", "[1][0]", "1 like 2"]),
    ("closing brackets and commas", [
        'principal["a"', 'principal["a")', 'principal["a" "b"]', 'principal["a".b]', "[1", "[1 2]", "[1)", "[1}", "[1;", "[1: 2]", "f(1", "f(1 2)", "f(1]", "context.f(1", "context.f(1 2)", "{a: 1", "{a: 1 b: 2}", "{a: 1]", "{a: 1)", "{a: 1; b: 2}",
        "[1 then]", "[[1]", "f(f(1)", "{a: [1}", "[f(1]", "{a: {b: 1}", "[principal is T", "[context has a", "[-1", "[1.a",
    ]),
    ("a colon", ["{a}", "{a", "{\"a\"}", "{a 1}", "{a = 1}", "{a:: 1}", "{a, b}", "{a.b: 1}", "{a::b: 1}", "{principal}", "{a: 1, b}"]),
    ("`then` and `else`", [
        "if true", "if true 1", "if true else 1", "if true then 1", "if true then 1 2", "if true then 1 then 2", "if true, 1", "(if true)", "if (true then 1 else 2)", "if true then if false then 1 else 2", "if true then 1; else 2", "if true == false", "[if true then 1]", "if true then 1)",
        "if a then 1 else 2" if False else "if context has a",
    ]),
    ("numbers", [
        "9223372036854775808", "-9223372036854775809", "18446744073709551616", "99999999999999999999999999999999999999999", "1 + 9223372036854775808", "-(9223372036854775808)", "-9223372036854775808.a", "-9223372036854775808[\"a\"]", "[1, 9223372036854775808]",
        "- 9223372036854775809", "f(9223372036854775808)", "1 - 9223372036854775808",
    ]),
    ("escapes", [
        r'"\q"', r'"\a"', r'"\*"', r'"a\*b"', r'"\x"', r'"\x4"', r'"\x80"', r'"\xFF"', r'"\xg1"', r'"\u"', r'"\u41"', r'"\u{}"', r'"\u{110000}"', r'"\u{d800}"', r'"\u{dfff}"', r'"\u{1234567}"', r'"\u{0000041}"', r'"\u{4_1}"', r'"\u{41"', r'"\u{g}"', r'"\N"', r'"\ "', r'"abc\qdef"', r'"é\q"',
        r'"\é"', "\"\\\n\"", r'context["\q"]', r'context has "\q"', r'{"\q": 1}', r'User::"\q"', r'context.s like "\q"', r'context.s like "*\x80"', r'1 + "\q"', r'f("\q")', r'context has "\*"', r'User::"a\*"', r'{"\*": 1}', "\"a\n\\q\"",
    ]),
    ("keys", ["{a: 1, a: 2}", '{a: 1, "a": 2}', '{"a": 1, a: 2}', '{"a": 1, "a": 2}', r'{a: 1, "\u{61}": 2}', "{a: 1, b: 2, a: 3}", "{a: {b: 1, b: 2}}", "[{a: 1, a: 2}]", "{a: 1, b: 2, b: 3, c: 4}", "{principal: 1, principal: 2}", '{"": 1, "": 2}']),
    ("arguments of methods", [
        "[1].contains()", "[1].contains(1, 2)", "[1].containsAll()", "[1].containsAny(1, 2, 3)", "[].isEmpty(1)", "[].isEmpty(1, 2)", "principal.getTag()", 'principal.hasTag("a", "b")', "context.a.b.contains()", "1 + [1].contains()",
    ]),
    ("characters and texts", [
        "a = 1", "1 = 2", "1 & 2", "1 | 2", "1 / 2", "1 % 2", " #", "$a", "~1", "^", "'a'", "1 + 'a'", "`a`", "é", "1 + é", "principal.é", "\\", "?", "1 ? 2 : 3", "? principal", "?1", "1 =", "(=", "[1 = 2]", "context.a.=", "if true then 1 % 2 else 3",
        '"abc', '"', '"abc\\"', "1 + \"", 'User::"a', 'context["a', "context has \"a", 'context.s like "a*', '{"a: 1}', '"a" "b', "\"a\n+ 1\n", "?action", "?context", "?foo", "1 == ?foo", "context.?x", "?principals", "?Principal", "==?", "=>", "->", "a -> b" if False else "1 -> 2", "1 <> 2", "1 === 2", "1 !== 2", "!=1", "1 =< 2", "/* a */ 1", " # a\n1",
    ]),
    ("lines and columns", [
        "1 +\n+ 2", "1\n\n\n2", "// é\n  😀", '"é" "x"', '"😀😀" + + 1', "1 // é\n  + // x\n\t* 2", "true &&\r\n  foo", "\n\n\n", "principal.a\n  .b\n  .1", "[\n  1,\n  2\n", "{\n  a: 1,\n  a: 2\n}", "\"a\nb\" 1", "\u00a0\u00a01 1", "a\r1",
    ]),
]

PLACES = [
    "1", " 1 ", "  true", "(1)", "( 1 )", "((1))", "1 + 2", "(1 + 2)", "(1) + (2)", "( (1) + 2 ) * 3", "1 + 2 * 3", "1 * 2 + 3", "1 - 2 - 3", "-1", "- 1", "--1", "-  -1", "-(1)", "-(-1)", "-1.a", "!true", "!!!true", "! ! true", "!(true)", "!(1 == 2)",
    "1 != 2", "1 > 2", "(1) >= (2)", "1 != 2 && 3 > 4", "true && false || true", "true && (false || true)", "true || (false) || true", "if true then 1 else 2", "if (true) then (1) else (2)", "(if true then 1 else 2) + 3", "if 1 == 2 then -3 else 4 + 5",
    "principal", "context.a", "(context).a", "((context) . a) . b", "context.a.b", 'context["a"]', 'context [ "a" ] . b', "context has a", "(context) has a . b", 'context has "a b"', "1 + 2 has a", 'context.s like "a*"', '(context.s) like "é*" == true' if False else '("é") like "é*"',
    "principal is User", "(principal) is A :: B", 'principal is User in Group::"g"', "(principal) is User in (resource)", "(principal is User in resource) && true", "context.a is T in [1]", 'User::"a"', 'A :: B :: "x"', '(User::"a").b', "[]", "[1, (2)]", "[ [ ] , [1] ]", "{}", "{a: 1, b: (2)}", "{ b : 1 , a : 2 }",
    '{"é": 1, "a": {b: -2}}', "f()", "f(1, (2))", "A :: f ( 1 )", "context.f()", "(context) . f ( 1 )", "[1].contains((1))", "context.a.isEmpty()", "f(1).g(2).h", "\"é\" == \"😀\"", "\"é\" + 1", "// é\n1 + // é\n2", "\n 1\n +\n 2", "1 + 2 + 3 + 4", "1 + (2 + (3 + 4))", "-context.n * 3", "!context has a", "!principal in resource", "(principal in resource) == (1 < 2)",
    "1 < 2 && 3 >= 4 || 5 != 6", "--context.n", "- -(1)", "----1", "\u30001 +\u00a02", "if true then if false then 1 else 2 else 3", "principal.getTag(\"é\") == (1)", "{a: if true then 1 else 2}", "(((principal))).a.f((((1))))", "-9223372036854775808", "1 - -1", "1 - (-1)", "(1) - 1 * (2)", "!(!(true))",
]

LEVELS_OF = [
    ("one level", ["1", "(1)", "((((1))))", "-1", "true", "principal", 'User::"a"', "[]", "{}", "f()", '"a"', "-9223372036854775808"]),
    ("two levels", ["!true", "-(1)", "1 + 2", "1 < 2", "true && false", "true || false", "context.a", 'context["a"]', "context has a", "context has a.b.c.d", 'context.s' , '"a" like "a"', "principal is A::B::C", "[1, 2, 3]", "{a: 1, b: 2}",
        "f(1, 2)", "context.f()", "[].isEmpty()", "if true then 1 else 2", "(((1)) + ((2)))", "--1", "[].contains(1)"]),
    ("more", ["1 != 2", "1 > 2", "1 >= 2", "principal is T in action", "principal.a is T in action", "principal is T in action.b.c", "!!!!true", "----1", "----context", "1 + 2 + 3 + 4", "1 + (2 + (3 + 4))", "a::b(1 + 2)", "context.a.b.c.d", "[[[[1]]]]", "{a: {b: {c: 1}}}",
        "if 1 == 2 then 3 + 4 * 5 else -6", "true && false && true && false", "true || (false && !(1 > 2))", "context.f(1).g(2 + 3).h()", "f(f(f(f())))", "[1, [2, [3]], 4]", "{a: 1, b: [2 + 3]}", "!(context has a.b)", "-1.a", "!context.a.b == (1 < 2)",
        "1 != 2 && 3 > 4 || 5 >= 6", "if if true then false else true then 1 else 2", 'principal == User::"a" && !context.x || resource has a.b']),
]

LIMITS = [
    (0, ["1", "(1)", "principal", "f(1)", "[]", "", "1 +", "foo"]),
    (1, ["1", "(((1)))", "[]", "{}", "f()", 'User::"a"', "-1", "- 1", "1 + 2", "(1) + (2)", "context.a", "!true", " !true", "[1]", "f(1)", "{a: 1}", "if true then 1 else 2", "context has a", "[] is T", "[] is T in []", "1 != 2", "--1", "-(1)", "1 1", "[1", "[f(", "context.a.1", "true && foo"]),
    (2, ["1 + 2", "1 + 2 + 3", "1 * 2 + 3", "1 + 2 * 3", "(1 + 2) * 3", "1 + (2 * 3)", "context.a", "context.a.b", "context.a.b.c", "!true", "!!true", "--1", "---1", "1 != 2", "1 == 2", "principal is T", "principal is T in action", "[1, [2]]", "[1, [2, [3]]]", "[1, 2]", "{a: [1]}", "{a: 1}", "f(f())", "f(f(1))", "context.f(1)", "context.f().g()", "if true then 1 else 2", "if true then 1 else 2 + 3",
        "(if true then 1 else 2).a", "context has a.b.c.d.e", "context.a has b", 'context.s like "*"', "1 + 2 == 3", "true || false && true", "\n[\n  [1]\n]", "\"é\" + (1 + 2)", "\"é\" == \"é\" || (true && !false)"]),
    (3, ["1 + 2 * 3", "1 + 2 + 3 + 4", "1 + 2 + 3 + 4 + 5", "[[[1]]]", "[[1]]", "!!!true", "!!true", "1 != 2", "!(1 != 2)", "principal is T in action", "principal is T in action.a", "principal.a is T in action", "context.a.b.c", "context.a.b", "{a: {b: {c: 1}}}", "{a: {b: 1}}", "if 1 == 2 then 3 else 4", "if 1 == 2 + 3 then 3 else 4", "((((((1))))))"]),
]

ENTITIES = [
    ("entities", ['User::"alice"', 'A::B::C::"x"', ' A :: B // c\n :: "x" ', 'User::""', r'User::"\n\"\u{e9}\x41"', 'permit::forbid::"a"', 'principal::"a"', '_::"a"', 'User::"é 😀"', 'User::"a\nb"', 'A1::B_2::"::"']),
    ("refused", ["", " ", '"a"', '::"a"', "1", "if", "User", "User::", "A::B", "A::B::", "User::1", "User::if", "User::[", 'User:"a"', 'User "a"', 'User."a"', 'User::"a" "b"', 'User::"a"::"b"', 'User::"a".b', 'User::"a" == 1', 'User::"a"//b\nc', 'User::"a', "User::'a'", r'User::"\q"', r'User::"a\*"', r'A::B::"\x80"', "User::?principal", '?principal::"a"', '(User::"a")', "A::B(1)", 'é::"a"', 'User::é', "A:: ::\"a\"", "true::\"a\"", 'A::true::"a"', 'User::"a",', '// c', "f()"]),
]

NAMES = [
    ("names", ["User", "A::B", "A::B::C::D", " A :: B // c\n", "principal", "permit::when", "_", "_1::a", "a // b", "contains", "A\n::\nB"]),
    ("refused", ["", "1", "if", "true", "::", "::A", '"a"', "A B", "A.b", "A:B", "A()", 'A "a"', "A,", "é", "Aé", "A-B", "?principal", "in", "A::B C", "A 1", "A::B.c", "A + B", "(A)", "@A", "A;"]),
]

# what stands behind `::` is neither an identifier nor a text
NAMES_BEHIND = ["A::", "A::1", "A::if", 'A::"a"', "A::B::", "A::B::in"]
