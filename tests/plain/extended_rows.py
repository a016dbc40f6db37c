"""Extended charts for the odd cases of docs/extended.md, which are played over random ticks of A, B and I. By effects
`x = x * 3 + N` the variable tells all of them, in their order."""


def tells(n):
    return f"x = x * 3 + {n}"


def chart(regions, items=""):
    return f"extended chart P {{ input bool A; input bool B; input int I; output int x; output int y; {items} {regions} }}"


# a state with actions and transitions
def acts(n, inside=""):
    return f"{{ entry do {tells(n)}; exit do {tells(n + 1)}; {inside} }}"


def inside(leave):
    """A superstate with two regions of states with actions, one of them with a region in it, that is left so."""
    deep = f"region Q {{ initial state d {acts(10, 'go if A -> e;')} state e {acts(12, 'go if A -> f;')} final state f {acts(14)} }} "
    left = f"region L {{ initial state a {acts(20, deep + 'join -> b;')} state b {{ go if B -> c; }} final state c {acts(22)} }} "
    right = f"region M {{ initial state g {acts(30, f'go if A and B do {tells(32)} -> h;')} final state h; }} "
    return chart(f"region R {{ initial state s {acts(40, left.replace('x =', 'y =').replace('x *', 'y *') + right + leave)} "
                 f"state t {acts(50, 'go if not A -> s;')} }}")


# three states with actions
THREE = (f"region Q {{ initial state a {acts(3, 'go if A -> b;')} state b {acts(5, 'go if B -> c;')} "
         "state c { go after 2 -> a; } }")


CHARTS = [
    # each way out of a superstate: what is inside first, in the order of the text
    *(inside(leave) for leave in (
        f"strong if B do {tells(60)} -> t;", f"weak if B do {tells(60)} -> t;", f"join do {tells(60)} -> t;", "strong if B -> s;",
        f"weak immediate if B do {tells(60)} -> t; join -> t;", f"strong immediate if B do {tells(60)} -> t; strong if A -> s;",
        "strong after 3 -> s;", f"weak after 3 if B do {tells(60)} -> t; strong after 5 -> s;")),
    # one region alone, three levels deep: the exits inside come before those outside
    *(chart(f"region R {{ initial state s {acts(1, f'region Q {{ initial state u {acts(3, inner)} state v {acts(9)} }} {leave}')} "
            f"state t {{ go if B -> s; }} }}")
      for inner in (f"region P {{ initial state a {acts(5, 'go if A -> b;')} state b {{ go if B -> c; }} final state c {acts(7)} }} join -> v;",
                    f"region P {{ initial state a {acts(5, 'go if A -> b;')} state b {{ go if B -> a; }} }} weak if A and B -> v;")
      for leave in (f"strong if A and B do {tells(60)} -> t;", f"weak if I > 1 do {tells(60)} -> s;", "strong after 3 -> s; weak if A -> t;")),
    # a superstate that is left as it is entered, with its own exit actions alone, and one whose inside is entered and left
    chart(f"region R {{ initial state s {acts(1, f'region Q {{ initial state a {acts(3)} }} strong immediate if A do {tells(60)} -> t;')} "
          f"state t {acts(5, 'go if B -> s;')} }}"),
    chart(f"region R {{ initial state s {acts(1, f'region Q {{ initial state a {acts(3)} }} weak immediate if A do {tells(60)} -> t;')} "
          f"state t {acts(5, 'go if B -> s;')} }}"),
    # simple states that are entered and left in one tick, and twice in one
    chart(f"region R {{ initial state s {acts(1, 'go immediate if A -> t;')} state t {acts(3, f'go immediate if B do {tells(60)} -> u;')} "
          f"state u {acts(5, 'go if A -> s; go -> t;')} }}"),
    # an entry action is seen by what is tested at once
    chart("region R { initial state s { entry do y = I; region Q { initial state a; } strong immediate if y > 1 do x = x + 1 -> t; "
          "strong -> s; } state t { go immediate if y > 3 do x = x + 10 -> u; go -> s; } state u { go -> s; } }"),
    # the effects of a transition see the exits, and its trigger does not
    chart("region R { initial state s { exit do y = y + 1; go if y < 3 do x = y -> s; go do y = 0, x = x + 10 -> s; } }"),
    # what variables were: in the first tick, of inputs, of variables with initial values, of what is set in this tick
    chart("region R { initial state s { go immediate do x = last * 100 + was -> t; } state t { go if before do x = last -> t; "
          "go do x = x + last + was -> t; } } region Q { initial state q { go do y = I -> q; } }",
          "local bool c = true; pre int was = y; pre int last = z; output int z = 7; pre bool before = A; pre bool first = c;"),
    chart("region R { initial state s { go immediate if first do x = 1 -> t; go immediate do x = 2 -> t; } state t { "
          "go if first and B do c = false -> t; go if not first do c = A, x = x + 1 -> t; } }",
          "local bool c = true; pre bool first = c;"),
    # waits: with and behind other transitions, of what changes, of none and less, in one another, begun anew
    chart(f"region R {{ initial state s {{ go after 2 if A do {tells(1)} -> s; go after 3 do {tells(2)} -> t; go if B do {tells(3)} -> s; }} "
          f"state t {{ go after I do {tells(4)} -> s; go after 4 do {tells(5)} -> u; }} state u {{ go after -1 do {tells(6)} -> t; }} }}"),
    chart("region R { initial state s { region Q { initial state a { go after 2 do x = x + 1 -> b; } state b { go after 1 do x = x + 10 -> a; } } "
          "strong if A -> s; strong after 5 do x = 0 -> s; weak after 4 if B do x = x + 100 -> s; } } "
          "region M { initial state c { go after N if A do y = y + 1 -> d; } state d { go immediate if B -> c; go after N + 1 -> c; } }",
          "const int N = 2;"),
    # counts: with triggers behind them, of what changes, of none and less, two of one state, begun anew
    chart(f"region R {{ initial state s {{ go after 2 of A do {tells(1)} -> s; go after 3 of B if I > 0 do {tells(2)} -> t; }} "
          f"state t {{ go after I of A or B do {tells(3)} -> s; go after 4 do {tells(4)} -> u; }} state u {{ go after -1 of A do {tells(5)} -> t; }} }}"),
    chart(f"region R {{ initial state s {{ go after N of A and not was do {tells(1)} -> t; go after 3 of q if B do {tells(2)} -> t; }} "
          f"state t {{ go immediate if B do {tells(3)} -> s; go after 1 of true do {tells(4)} -> s; }} }} "
          "region Q { initial state q { go if I > 1 do emit q -> q; } }", "const int N = 2; pre bool was = A; signal q;"),
    # of superstates, in one another, of what is written inside and beside, and set back where they are taken
    chart("region R { initial state s { region Q { initial state a { go after 2 of A do x = x + 1 -> b; } state b { go after 1 of B do x = x + 10 -> a; } } "
          "strong after 4 of A do x = 0 -> s; weak after 3 of x > 1 if B do x = x + 100 -> t; } state t { go after 2 of not B -> s; } } "
          "region M { initial state c { go after N of I > 0 if A do y = y + 1 -> d; } state d { go immediate if B -> c; go after 2 of A or B -> c; } }",
          "const int N = 2;"),
    chart("region R { initial state s { region Q { initial state a { go if A -> b; } final state b; } strong after 3 of z do z = false, x = x + 1 -> t; "
          "join if B -> t; } state t { go if A do z = true -> s; } } region M { initial state c { go if z do y = y + 1 -> c; } }", "local bool z = true;"),
    # states that are left and entered in one tick, and one whose during actions set what it counts
    chart(f"region R {{ initial state s {{ entry do {tells(1)}; exit do {tells(2)}; go after 2 of A do {tells(3)} -> t; }} "
          f"state t {{ go immediate if B do {tells(4)} -> s; go immediate if I > 2 -> u; go after 2 of B do {tells(5)} -> s; }} "
          f"state u {{ go after 1 of A do {tells(6)} -> s; }} }}"),
    chart("region R { initial state s { entry do y = 0; immediate during if A do y += 1; go after 2 of y > 1 do x = x + 1 -> t; } "
          "state t { go -> s; } }"),
    # history: by each way into a superstate and out of it, of one that was never left and of itself, with final states and
    # with what is deeper, which begins anew; and where nothing inside was entered, as at first
    *(chart(f"region R {{ initial state s {acts(1, f'region Q {{ initial state u {acts(3, inner)} final state v {acts(9)} }} {leave}')} "
            f"state t {acts(50, enter)} }}")
      for inner in (f"region P {{ initial state a {acts(5, 'go if A -> b;')} state b {{ go if B -> c; }} final state c {acts(7)} }} join -> v;",
                    f"region P {{ initial state a {acts(5, 'go if A -> b;')} state b {{ go if B -> a; }} }} weak if A and B -> v;")
      for leave, enter in ((f"strong if A and B do {tells(60)} -> t;", "go if A -> shallow history s; go -> s;"),
                           (f"weak if I > 1 do {tells(60)} -> shallow history s; strong if I > 3 -> t;", "go -> shallow history s;"),
                           ("strong after 3 -> shallow history s; weak if A -> t;", "go after 2 -> shallow history s; go if B -> s;"),
                           (f"weak if I > 2 -> t; join if B do {tells(60)} -> t;", "go if A -> shallow history s;"))),
    chart(f"region R {{ initial state t {{ go if A -> shallow history s; go if B -> s; }} "
          f"state s {acts(1, f'{THREE} strong immediate if I > 3 do {tells(60)} -> t; strong if I > 1 -> t;')} }}"),
    chart("region R { initial state s { region Q { initial state a { go if A do x = x + 1 -> b; } state b { go if A do x = x + 10 -> c; } final state c; } "
          "region M { initial state d { go if B do y = y + 1 -> e; } state e { go if B do y = y + 10 -> d; } } strong if I > 2 -> t; weak if I > 1 -> shallow history s; } "
          "state t { go if I < 2 -> shallow history s; go -> t; } }"),
    chart(f"region R {{ initial state s {{ region Q {{ initial state a {{ during do x = x + 1; go after 2 of A -> b; }} state b {{ immediate during if A do x = x + 10; "
          f"go after 3 -> a; }} }} strong if B -> t; }} state t {{ during do y = y + 1; go after 2 -> shallow history s; }} }}"),
    # during actions: of simple states, behind entry actions and before the transitions, which see them
    chart("region R { initial state s { entry do y = 0; during do y += 1; go if y >= 3 do x = x + 1 -> s; } }"),
    chart(f"region R {{ initial state s {{ during do {tells(1)}; immediate during if A do {tells(2)}; during if B do {tells(3)}, {tells(4)}; "
          f"entry do {tells(5)}; exit do {tells(6)}; go if A and B do {tells(7)} -> t; go after 3 do {tells(8)} -> t; }} "
          f"state t {{ immediate during do {tells(9)}; go if not A -> s; }} }}"),
    chart("region R { initial state s { during do emit q; immediate during if was do x = x + N; go if A -> t; } "
          "state t { go if was and B -> s; go after 3 -> s; } }", "const int N = 3; signal q; pre bool was = q;"),
    # of superstates: beside what is inside, also where that has ended, before weak aborts and not behind strong ones
    chart("region R { initial state s { during do y = y + I; immediate during if A do y = y + 10; region Q { initial state a { go if A -> b; } "
          "state b { go do x = x + 1 -> c; } final state c; } strong if B -> t; weak if y > 20 do y = 0 -> t; } state t { go if not B -> s; } }"),
    chart("region R { initial state s { during do y = y + 1; region Q { initial final state a; } weak after 2 if A -> t; strong after 4 -> t; } "
          "state t { during do y = y * 2; go after 2 -> s; go if B do x = y -> s; } }"),
    chart(f"region R {{ initial state s {{ during do {tells(1)}; region Q {{ initial state a {{ during do y = y + 1; go if A -> b; }} "
          f"state b {{ immediate during if A do y = y + 5; during do y = y + 7; }} }} strong immediate if B do {tells(2)} -> t; "
          f"weak if A and I > 1 do {tells(3)} -> s; }} state t {{ go if not B -> s; }} }}"),
    chart(f"region R {{ initial state s {{ exit do {tells(1)}; immediate during do {tells(2)}; region Q {{ initial state a "
          f"{{ entry do y = y + 1; exit do y = y * 2; go if A -> b; }} state b {{ exit do y = y + 7; go if B -> a; }} }} "
          f"strong if A and B do {tells(7)} -> t; weak if I > 2 do {tells(8)} -> t; }} state t {acts(9, 'go if B -> s;')} }}"),
    # of superstates that are left by their termination: they end with what is inside, in the tick of the entry too, and at once
    # or later with its trigger, which reads what they set; aborts go before it
    chart("region R { initial state s { during do y = y + 1; immediate during if B do y = y + 10; region Q { initial state a { go if A -> b; } "
          "state b { go -> c; } final state c; } region M { initial state d { go if B -> e; } final state e; } strong if I > 3 do x = y -> t; "
          "join do x = x + y -> t; } state t { go if not B -> s; } }"),
    chart("region R { initial state s { during do y = y + 1; immediate during if B do y = y + 10; region Q { initial state a { go immediate if A -> b; "
          "go if B -> b; } final state b; } join do x = x * 3 + y -> t; } state t { go -> s; } }"),
    chart("region R { initial state s { entry do y = 0; immediate during do y = y + I; region Q { initial final state a; } weak if I > 3 -> t; "
          "join if y > 5 do x = x * 3 + y -> t; } state t { go -> s; } }"),
    chart("region R { initial state s { immediate during do y = y * 3 + 1; region Q { initial state a { during do x = x * 3 + 2; region M { initial state d { "
          "go immediate if B -> e; go if A -> e; } final state e; } join if I < 3 -> b; } final state b; } join do x = x + 1 -> t; } state t { go -> s; } }"),
    # what is inside makes its exit actions as the superstate is left, behind the during actions, and not as it ends
    chart("region R { initial state s { exit do y = y * 3 + 1; during do y = y * 3 + x; region Q { initial state a { exit do x = x * 3 + 3; go if A -> b; } "
          "final state b { entry do x = x * 3 + 4; exit do x = x * 3 + 5; } } strong if I > 3 -> t; weak if I < 0 -> t; join if B do x = x * 3 + 6, y = y * 3 + 7 -> t; } "
          "state t { go if not A -> s; } }"),
]
