"""Texts of policies, by title."""

POLICIES = [
    ("scopes", [
        "", " ", "// nothing\n",
        "permit(principal, action, resource);", "forbid(principal, action, resource);", "permit ( principal , action , resource ) ;", "permit(principal,action,resource);",
        'permit(principal == User::"alice", action, resource);', 'permit(principal in Group::"admins", action, resource);', "permit(principal is User, action, resource);",
        'permit(principal is User in Group::"admins", action, resource);', 'permit(principal is A::B::User in A::B::Group::"g", action, resource);',
        'permit(principal, action == Action::"view", resource);', 'permit(principal, action in Action::"all", resource);', 'permit(principal, action in [Action::"view"], resource);',
        'permit(principal, action in [Action::"view", Action::"list", NS::Action::"edit"], resource);', "permit(principal, action in [], resource);", "permit(principal, action in [ ], resource);",
        'permit(principal, action, resource == Photo::"p.jpg");', 'permit(principal, action, resource in Album::"a");', "permit(principal, action, resource is Photo);", 'permit(principal, action, resource is Photo in Album::"a");',
        'forbid(principal == A::B::"x", action == A::Action::"y", resource == B::"z");', 'forbid(principal in G::"g", action in [Action::"a", Action::"b"], resource in G::"h");', 'permit(principal is principal, action == action::"a", resource is when);',
        'permit(principal == User::"a\\"b\\\\", action == Action::"\\u{e9}\\n", resource == Photo::"😀");', 'permit(principal == User::"", action, resource);', 'permit(principal == A :: B :: "x", action, resource);',
        'permit(principal is A :: B in C :: "x", action, resource is permit::forbid);',
    ]),
    ("clauses", [
        "permit(principal, action, resource) when { true };", "permit(principal, action, resource) unless { true };", "permit(principal, action, resource) when { context.a } when { context.b };",
        "permit(principal, action, resource) when { context.a } unless { context.b };", "permit(principal, action, resource) unless { context.a } when { context.b };", "permit(principal, action, resource) unless { context.a } unless { context.b };",
        "permit(principal, action, resource) when { 1 } when { 2 } unless { 3 } when { 4 };", "permit(principal, action, resource)when{true}unless{false};", "permit(principal, action, resource) when { {a: 1}.a == 1 };", "permit(principal, action, resource) when { {} == {} } unless { [{}] == [] };",
        'permit(principal, action, resource) when { principal == User::"a" && action in [Action::"b"] || resource has a.b };', "permit(principal, action, resource) when { if principal == resource then true else context.x > 3 };",
        'permit(principal, action, resource) when { context.s like "a*\\*" };', "permit(principal, action, resource) when { principal is User in resource };", 'forbid(principal == User::"a", action, resource) unless { context.mfa };',
        "permit(principal, action, resource) when { -1 < 2 && !true };", 'permit(principal, action, resource) when { ip("1.1.1.1").isIpv4() && [1].contains(1) };', 'permit(principal, action, resource) when { "}; permit" == "when {" };', "permit(principal, action, resource) when { context.when.unless.permit };",
        "permit(principal, action, resource) when { principal };", "permit(principal, action, resource) when { 1 + 2 };", "permit(principal, action, resource) unless { !(context.a) };", "permit(principal, action, resource) unless { 1 != 2 };",
        "permit(principal, action, resource) when { (true) } when { (1 == 2) || (3 > 4) };",
    ]),
    ("annotations", [
        '@id("one") permit(principal, action, resource);', '@id("one")\n@note("two")\npermit(principal, action, resource);', "@note permit(principal, action, resource);", "@a @b @c forbid(principal, action, resource);", '@a("x") @b @c("") permit(principal, action, resource);',
        '@b("1") @a("2") permit(principal, action, resource);', '@if("1") @then("2") @else("3") @true("4") @false("5") @in("6") @has("7") @like("8") @is("9") permit(principal, action, resource);', '@permit("a") @forbid("b") @when("c") @unless("d") permit(principal, action, resource);',
        '@principal("a") @action("b") @resource("c") @context("d") permit(principal, action, resource);', '@_("x") @a1_B("y") permit(principal, action, resource);', '@id("\\n\\"\\\\\\u{e9}") permit(principal, action, resource);', '@ id ( "one" ) permit(principal, action, resource);', '@A("1") @a("2") permit(principal, action, resource);',
        '@id("a // b") permit(principal, action, resource); // c', '@permit permit(principal, action, resource);', '@advice("line\none") permit(principal, action, resource);', '@id permit(principal, action, resource) when { context.id };', '@id("1") permit(principal, action, resource); @id("2") forbid(principal, action, resource);',
    ]),
    ("files", [
        "permit(principal, action, resource);forbid(principal, action, resource);", 'permit(principal, action, resource);\nforbid(principal == User::"a", action, resource);\npermit(principal, action == Action::"b", resource) when { true };\n',
        "// first\npermit(principal, action, resource); // second\n// third\nforbid(principal, action, resource); //", "permit(\n  principal,\n  action,\n  resource\n)\nwhen {\n  context.a\n}\nunless {\n  context.b\n};\n",
        "permit(principal, action, resource);\r\n\r\nforbid(principal, action, resource);\r\n", "@a permit(principal, action, resource); @a forbid(principal, action, resource); @a permit(principal, action, resource);",
        "permit(principal, action, resource) when { true };\n\n\npermit(principal, action, resource) when { false };", "permit/**/(principal, action, resource);" if False else "permit // effect\n( // scope\nprincipal, action, // two\nresource) // when\n;",
        "permit(principal, action, resource); permit(principal, action, resource); permit(principal, action, resource); forbid(principal, action, resource); forbid(principal, action, resource);",
    ]),
    ("templates", [
        "permit(principal == ?principal, action, resource);", "permit(principal in ?principal, action, resource);", "permit(principal is User in ?principal, action, resource);", "permit(principal, action, resource == ?resource);", "permit(principal, action, resource in ?resource);",
        "permit(principal, action, resource is Photo in ?resource);", "permit(principal == ?principal, action, resource == ?resource);", 'forbid(principal in ?principal, action == Action::"a", resource in ?resource) when { context.a } unless { context.b };',
        '@id("t") permit(principal == ?principal, action in [Action::"a", Action::"b"], resource is A::B);', "permit(principal == ?principal, action, resource); permit(principal, action, resource);", "permit(principal, action, resource); permit(principal == ?principal, action, resource); forbid(principal, action, resource);",
        "permit(principal == ?principal, action, resource); permit(principal, action, resource == ?resource);", 'permit(principal==?principal,action,resource==Photo::"p");', 'permit(principal == User::"a", action, resource in ?resource);',
    ]),
]

HEAD = "permit(principal, action, resource)"
BASE = ['@', 'id', '(', '"a"', ')', 'permit', '(', 'principal', 'is', 'A', '::', 'B', 'in', 'G', '::', '"g"', ',', 'action', 'in', '[', 'Action', '::', '"v"', ',', 'Action', '::', '"w"', ']', ',', 'resource', '==', 'P', '::', '"p"', ')', 'when', '{', 'context', '.', 'a', '==', '1', '}', 'unless', '{', 'true', '}', ';']


def joined(tokens):
    return " ".join(tokens)


REFUSED = [
    ("a policy is wanted", [
        "1", "true", "principal", "(principal, action, resource);", "allow(principal, action, resource);", "Permit(principal, action, resource);", "when { true };", ";", ";;", "}", "{", "permit(principal, action, resource);;", f"{HEAD}; 1", f"{HEAD}; unless", f"{HEAD}; )",
        '@id("a")', "@id", '@id("a");', '@id("a") ;', '@id("a") when { true };', "@id(\"a\") @note", "@id a", "@id \"a\"", "@id principal", '@id("a") ("b") permit(principal, action, resource);', '@id("a"), @b permit(principal, action, resource);', "?principal", '"permit"', "permits(principal, action, resource);",
        '@id == "a" permit(principal, action, resource);', '@id::b permit(principal, action, resource);', "[permit(principal, action, resource);]",
    ]),
    ("the key of an annotation", ["@", "@;", '@("a") permit(principal, action, resource);', f'@"id" {HEAD};', f"@1 {HEAD};", f"@@id {HEAD};", f"@?principal {HEAD};", "@ (", f"@id @ {HEAD.replace('permit', '(')};", f"@== {HEAD};"]),
    ("the text of an annotation", [f"@id() {HEAD};", f"@id(a) {HEAD};", f"@id(1) {HEAD};", f"@id(true) {HEAD};", "@id(", f"@id(@) {HEAD};", f'@id(("a")) {HEAD};', f"@id(permit) {HEAD};", f"@id(-1) {HEAD};"]),
    ("its closing bracket", [f'@id("a" {HEAD};', f'@id("a", "b") {HEAD};', f'@id("a" + "b") {HEAD};', '@id("a"', f'@id("a"] {HEAD};', f'@id("a" "b") {HEAD};']),
    ("the opening bracket of the scope", ["permit", "permit;", "permit principal, action, resource;", "permit [principal, action, resource];", "permit{principal, action, resource};", "permit permit(principal, action, resource);", "forbid when { true };", "permit ::", 'permit "a"(principal, action, resource);', "permit @id"]),
    ("the principal", ["permit(", "permit();", "permit(action, principal, resource);", "permit(resource);", "permit(,);", 'permit(User::"a", action, resource);', "permit(?principal, action, resource);", "permit((principal), action, resource);", "permit(!principal, action, resource);", "permit(Principal, action, resource);", "permit(context, action, resource);", "permit(true);", "permit(,action, resource);", "permit(principals, action, resource);"]),
    ("the action", ["permit(principal,", "permit(principal,);", "permit(principal, resource, action);", "permit(principal, principal, resource);", 'permit(principal, Action::"a", resource);', "permit(principal, , resource);", "permit(principal, 1, resource);", "permit(principal, context, resource);"]),
    ("the resource", ["permit(principal, action,", "permit(principal, action,);", "permit(principal, action, action);", 'permit(principal, action, Photo::"a");', "permit(principal, action, context);", "permit(principal, action, ?resource);", "permit(principal, action, (resource));", "permit(principal, action, ;"]),
    ("a comma behind a constraint", [
        "permit(principal", "permit(principal);", "permit(principal action resource);", 'permit(principal = User::"a", action, resource);', 'permit(principal != User::"a", action, resource);', "permit(principal has a, action, resource);", "permit(principal.a, action, resource);", "permit(principal && true, action, resource);", "permit(principal;", 'permit(principal == User::"a" action, resource);',
        'permit(principal == User::"a");', 'permit(principal == User::"a" == User::"b", action, resource);', 'permit(principal == User::"a" || principal == User::"b", action, resource);', 'permit(principal in Group::"a" in Group::"b", action, resource);', 'permit(principal in Group::"a".b, action, resource);', "permit(principal is User;", "permit(principal is User has a, action, resource);", 'permit(principal is User == User::"a", action, resource);',
        'permit(principal is User in Group::"a" in Group::"b", action, resource);', "permit(principal == ?principal == ?principal, action, resource);", "permit(principal == ?principal.a, action, resource);", "permit(principal + 1, action, resource);", 'permit(principal like "a", action, resource);', "permit(principal, action resource);", "permit(principal, action);", "permit(principal, action is Action, resource);",
        'permit(principal, action != Action::"a", resource);', 'permit(principal, action == Action::"a" resource);', 'permit(principal, action in [Action::"a"] resource);', 'permit(principal, action in [Action::"a"], [Action::"b"], resource);' if False else 'permit(principal, action in [Action::"a"] in [], resource);', "permit(principal, action.id, resource);", 'permit(principal is User("a"), action, resource);', "permit(principal, action", "permit(principal, action in []", "permit(principal :: a, action, resource);", "permit(principal) when { true };",
    ]),
    ("the closing bracket of the scope", [
        "permit(principal, action, resource", "permit(principal, action, resource;", "permit(principal, action, resource, context);", "permit(principal, action, resource,);", "permit(principal, action, resource has a);", 'permit(principal, action, resource == Photo::"a"', 'permit(principal, action, resource == Photo::"a", context);', 'permit(principal, action, resource is Photo in Album::"a" in Album::"b");',
        "permit(principal, action, resource] when { true };", "permit(principal, action, resource when { true });", "permit(principal, action, resource.a);", "permit(principal, action, resource is Photo when { true });", 'permit(principal, action, resource != Photo::"a");', "permit(principal, action, resource == ?resource ?resource);",
    ]),
    ("an entity or a slot", [
        "permit(principal ==, action, resource);", "permit(principal == , action, resource);", "permit(principal == 1, action, resource);", 'permit(principal == "a", action, resource);', "permit(principal ==", "permit(principal == ?resource, action, resource);", "permit(principal, action, resource == ?principal);", "permit(principal in, action, resource);", 'permit(principal in [User::"a"], action, resource);',
        "permit(principal is User in, action, resource);", 'permit(principal is User in [Group::"a"], action, resource);', "permit(principal is User in ?resource, action, resource);", "permit(principal, action, resource in ?principal);", "permit(principal, action, resource in);", 'permit(principal, action, resource == (Photo::"a"));', 'permit(principal == !User::"a", action, resource);', "permit(principal == true, action, resource);", 'permit(principal == ::"a", action, resource);', "permit(principal, action, resource is A in ?principal);",
        "permit(principal == {}, action, resource);", "permit(principal in [], action, resource);",
    ]),
    ("an entity", [
        "permit(principal, action ==, resource);", "permit(principal, action == 1, resource);", "permit(principal, action == [], resource);", 'permit(principal, action == [Action::"a"], resource);', "permit(principal, action == ?principal, resource);", "permit(principal, action in, resource);", "permit(principal, action in ?resource, resource);", "permit(principal, action in [, resource);", "permit(principal, action in [,], resource);",
        'permit(principal, action in [Action::"a",], resource);', "permit(principal, action in [?principal], resource);", "permit(principal, action in [1], resource);", 'permit(principal, action in [[Action::"a"]], resource);', 'permit(principal, action in [(Action::"a")], resource);', "permit(principal, action in [", 'permit(principal, action in [Action::"a",', "permit(principal, action == \"a\", resource);", "permit(principal, action in [true], resource);",
    ]),
    ("a comma or the end of the list", ['permit(principal, action in [Action::"a" Action::"b"], resource);', 'permit(principal, action in [Action::"a", resource);' if False else 'permit(principal, action in [Action::"a"; Action::"b"], resource);', 'permit(principal, action in [Action::"a"), resource);', 'permit(principal, action in [Action::"a"', 'permit(principal, action in [Action::"a".b], resource);', 'permit(principal, action in [Action::"a" || Action::"b"], resource);']),
    ("the rest of an entity", ["permit(principal == User, action, resource);", "permit(principal == User::, action, resource);", "permit(principal == User::1, action, resource);", "permit(principal == A::B, action, resource);", "permit(principal == User.a, action, resource);", "permit(principal in principal, action, resource);", "permit(principal == User::if, action, resource);", "permit(principal, action == Action, resource);", "permit(principal, action in [Action], resource);", "permit(principal, action in [Action::], resource);", "permit(principal, action, resource == f(1));", "permit(principal, action, resource == A::B::)", "permit(principal is User in Group, action, resource);", "permit(principal == User::'a', action, resource);", "permit(principal == User", "permit(principal == User::"]),
    ("a type", ["permit(principal is, action, resource);", "permit(principal is 1, action, resource);", 'permit(principal is "User", action, resource);', "permit(principal is if, action, resource);", "permit(principal is [User], action, resource);", "permit(principal is ?principal, action, resource);", "permit(principal is A::, action, resource);", "permit(principal is A::1, action, resource);", 'permit(principal is User::"a", action, resource);', "permit(principal is in, action, resource);", "permit(principal, action, resource is);", "permit(principal, action, resource is true);", "permit(principal is", "permit(principal is A::in G::\"g\", action, resource);"]),
    ("a clause or the end", [HEAD, f"{HEAD} permit", f"{HEAD} {{ true }};", f"{HEAD} if {{ true }};", f"{HEAD} when {{ true }}", f"{HEAD} when {{ true }} when", f"{HEAD} when {{ true }} {{ true }};", f"{HEAD} when {{ true }}, unless {{ false }};", f"{HEAD} when {{ true }} || unless {{ false }};", f"{HEAD}, when {{ true }};", f"{HEAD}) when {{ true }};", f"{HEAD}.a;", f"{HEAD} advice {{ true }};", f"{HEAD} 1;", f"{HEAD} @id;", f"{HEAD}\n{HEAD};", f"{HEAD} unless {{ true }} }};"]),
    ("the opening brace of a clause", [f"{HEAD} when", f"{HEAD} when;", f"{HEAD} when true;", f"{HEAD} when (true);", f"{HEAD} when [true];", f"{HEAD} unless true;", f"{HEAD} when when {{ true }};", f"{HEAD} when unless {{ true }};", f"{HEAD} unless {{ true }} when;", f'{HEAD} when "a" {{ true }};']),
    ("the expression in a clause", [
        f"{HEAD} when {{", f"{HEAD} when {{}};", f"{HEAD} when {{ }};", f"{HEAD} when {{ ; }};", f"{HEAD} when {{ true", f"{HEAD} when {{ true;", f"{HEAD} when {{ true; }};", f"{HEAD} when {{ true true }};", f"{HEAD} when {{ true, false }};", f"{HEAD} when {{ 1 + }};", f"{HEAD} when {{ foo }};", f"{HEAD} when {{ (true }};", f"{HEAD} when {{ [1 }};", f"{HEAD} when {{ {{a: 1 }};", f"{HEAD} when {{ true ) }};",
        f"{HEAD} when {{ 1 == 2 == 3 }};", f"{HEAD} when {{ if true then 1 }};", f"{HEAD} when {{ ?principal }};", f"{HEAD} when {{ principal == ?principal }};", f"{HEAD} when {{ ?resource in resource }};", f"{HEAD} unless {{ resource in ?resource }};", f"permit(principal == ?principal, action, resource) when {{ ?principal has a }};", f"{HEAD} when {{ ?other }};", f"{HEAD} when {{ a = b }};", f"{HEAD} when {{ principal. }};", f"{HEAD} when {{ true }} unless {{ !!!!!true }};",
        f"{HEAD} when {{ context has }};", f"{HEAD} when {{ context like a }};", f"{HEAD} when {{ principal is }};", f"{HEAD} when {{ A::}};", f"{HEAD} when {{ principal[1] }};", f"{HEAD} when {{ {{ true }} }};", f"{HEAD} when {{ if true then 1 else }};", f"{HEAD} when {{ \"a }};", f"{HEAD} when {{ true ]; }};", f"{HEAD} when {{ when }};",
        f"{HEAD} when {{ principal == resource, }};", f"{HEAD} when {{ [1, 2, ] }};",
    ]),
    ("numbers, escapes and keys", [
        f"{HEAD} when {{ 9223372036854775808 }};", f"{HEAD} when {{ -9223372036854775809 == 1 }};", f'{HEAD} when {{ "\\q" }};', f'{HEAD} when {{ context.s like "\\x80" }};', f"{HEAD} when {{ {{a: 1, a: 2}} }};", f'@id("\\q") {HEAD};', f'@id("\\*") {HEAD};', 'permit(principal == User::"\\q", action, resource);', 'permit(principal, action in [Action::"a", Action::"\\u{}"], resource);', 'permit(principal, action, resource is A in B::"\\xff");',
        f'@id("a") @id("b") {HEAD};', f"@a @b @a {HEAD};", f'@id @id("a") {HEAD};', f"@if @if {HEAD};", f"{HEAD} when {{ [1].contains() }};", f"{HEAD} unless {{ [].isEmpty(1) }};",
    ]),
    ("characters and texts", [" #", f" # a\n{HEAD};", f"/* a */ {HEAD};", "permit(principal, action, resource)§;", "permit(principal; action; resource);", '@id("a permit(principal, action, resource);', "permit(principal == 'a', action, resource);", "permit(?user, action, resource);", "permit(principal == ?user, action, resource);", "permit(principal, action, resource == ?);", f"{HEAD} when {{ 'a' }};", "é", f"{HEAD} when {{ true }} é", "permit(principal & action);", f"{HEAD}: when {{ true }};", "permit(principal -> action);"]),
    ("more than one error", [
        "1; 2; 3;", "permit(; forbid(; permit;", f"permit; {HEAD}; forbid;", f"{HEAD}; permit(principal); {HEAD}; permit(principal, action);", f"permit(principal, action, resource) when {{ 1 + }};\nforbid(principal, action, resource) when {{ foo }};\n", f"{HEAD} when {{ true; }}; {HEAD};", f"{HEAD} {HEAD};\n{HEAD};\nforbid;", f"@;\n@;\n{HEAD};\n@id(;", ";;;", f'{HEAD} when {{ "\\q" }};\n{HEAD} when {{ 9223372036854775808 }};\n{HEAD} when {{ {{a: 1, a: 2}} }};',
        f"permit(principal == 1, action, resource);\n\n{HEAD};\n\n  forbid(principal, action == 1, resource) when {{ true }};\npermit(principal, action, resource == 1)", f"{HEAD} when {{ é }};\n{HEAD} when {{ 'x' }};\n", f"{HEAD} when {{ {{a: 1; b: 2}} }}; {HEAD};", f'permit(principal == User::"\\q", action, resource);\npermit;', f'permit;\npermit(principal == User::"\\q", action, resource);', f'{HEAD} when {{ ";" ; }};\nforbid;', "permit; // ;\nforbid; // ;\n1;", f"{HEAD};\npermit(principal, action, resource)\n{HEAD};\npermit(\n;\n{HEAD};\n?x;",
        f'@id("a") @id("b") {HEAD}; @a @a {HEAD};',
    ]),
    ("a policy that is cut short", [joined(BASE[:i]) for i in range(1, len(BASE))]),
    ("a policy that lacks a token", [t for t in (joined(BASE[:i] + BASE[i + 1 :]) for i in range(len(BASE)))]),
    ("a policy with a stray number", [joined(BASE[:i] + ["7"] + BASE[i:]) for i in range(len(BASE) + 1)]),
    ("a policy with a stray bracket", [joined(BASE[:i] + [")"] + BASE[i:]) for i in range(0, len(BASE) + 1, 2)]),
]

PLACES = [x for title, texts in POLICIES if title in ("scopes", "templates", "files") for x in texts] + [
    f"{HEAD} when {{ true }};", f"  {HEAD} when {{ (true) }} ;", f"{HEAD} unless {{ 1 }};", f"{HEAD} unless {{ (1) }} ;", f"{HEAD} when {{ 1 }} when {{ 2 }};", f"{HEAD} when {{ 1 }} unless {{ 2 }} when {{ (3) }};", f"{HEAD} unless {{ context.a }} unless {{ !context.b }};",
    f'@id("é") @note {HEAD} when {{ "é" == (1 + 2) }};', f"// é\n{HEAD} // é\n when // é\n {{ context.a > 1 }} // é\n ; // é\n{HEAD};", 'permit(principal == (User)::"a", action, resource);' if False else 'permit ( principal == User :: "é" , action in [ A :: "é" , A :: "b" ] , resource is A :: B in C :: "é" ) when { principal is T in action } ;',
    f"{HEAD} when {{ if true then 1 else 2 }} unless {{ {{a: 1, b: [2]}}.a }};", 'permit(principal in ?principal, action == Action::"a", resource is P in ?resource) unless { resource has a.b };',
]

ONE = [
    ("one policy", [f"{HEAD};", f"  {HEAD} ; // c", f'@id("a") @b {HEAD} when {{ true }} unless {{ 1 }};', "permit(principal == ?principal, action, resource in ?resource);", 'forbid(principal is A in B::"c", action in [], resource);']),
    ("refused", ["", " ", "// c", f"{HEAD}", f"{HEAD};;", f"{HEAD}; 1", f"{HEAD};\n{HEAD};", f"{HEAD}; @id", f"{HEAD}; }}", "1;", "permit; forbid;", f"{HEAD} when {{ true; }};", f'{HEAD} when {{ "\\q" }};', f'@id("\\q") {HEAD};', f"@a @a {HEAD};", f'{HEAD}; "a', f"{HEAD}; ?x", f"{HEAD}; é", f"{HEAD} when {{ foo }};", f"{HEAD} when {{ 9223372036854775808 }};", f"{HEAD}; // c\n//\n  permit"]),
]
