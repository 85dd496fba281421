"""Small programs for points that random sheets meet seldom: the order of checks, scopes, captures, classes, imports.

`programs()` gives what each shows, and its tree. The oracle says what comes of them. `later_programs()` gives those that
were added for faults of planted.py, with pairs of nodes: the row of the first must stand before that of the second.
`distance_programs()`, with such pairs too, are for F-6 of document 02: how many functions lie between a use and its declaration.
"""
import random

from sheets import INIT, MAIN_UNIT, NULL, Sheet
from tree import Node

NAMES = [b"a", b"b", b"c", b"f", b"g", b"m", b"n", b"p", b"q", b"A", b"B", b"C"]
a, b, c, f, g, m, n, p, q, A, B, C = range(25, 25 + len(NAMES))
STRING, DICT, UI_EVENT, AUDIO_NEEDED, AUDIO_DATA = 3, 6, 7, 8, 9


# expressions

def nil():
    return Node(40)


def use(name):
    return Node(50, name)


def host(name):
    return Node(51, name)


def lit(params, body, record=0, name=0):
    return Node(52, record, 0, [fun(name, params, body)])


def fun(name, params, body):
    return Node(6, name, 0, [Node(11, param) for param in params] + [body])


def member(base, field):
    return Node(54, field, 0, [base])


def is_a(value, name):
    return Node(55, name, 0, [value])


def array(*values):
    return Node(47, kids=values)


def call(callee, *args):
    return Node(59, kids=[callee, *args])


def static(record, method, *args):
    return call(member(use(record), method), *args)


# statements

def do(value):
    return Node(20, kids=[value])


def put(left, right):
    return Node(21, kids=[left, right])


def give(value):
    return Node(22, kids=[value])


def stop():
    return Node(23)


def again():
    return Node(24)


def nil_body():
    return give(nil())


def block(*stmts):
    return Node(25, kids=stmts)


def when(test, *parts):
    return Node(26, kids=[test, *parts])


def loop(init, test, step, body):
    return Node(27, kids=[init, test, step, body])


def let(name, value=None, kind=0):
    return Node(29, name, kind, [value or nil()])


def var(name, value=None):
    return let(name, value, 1)


def declare(record):
    return Node(30, record)


# units

def record(name, parent=0, fields=(), methods=()):
    return Node(4, name, parent, [Node(10, field) for field in fields] + list(methods))


def bring(unit, *names, everything=0):
    return Node(3, unit, everything, [Node(9, name) for name in names])


def unit(*stmts, imports=(), exports=(), consts=(), classes=(), declared=True):
    """A unit; its classes are declared after its statements, unless they stand among these."""
    body = list(stmts) + ([declare(each) for each in classes] if declared else [])
    function = Node(6, 0, 1, [block(*body)])
    return Node(2, kids=[*imports, *exports, *consts, *classes, function])


def sheet(*units, start=5, main=0):
    return Node(0, start, units[main].kids[-1], units)


def in_function(*stmts, params=()):
    return sheet(unit(let(f, lit(params, block(*stmts)))))


def method(name, *stmts, params=()):
    return fun(name, params, block(*stmts))


# the programs

def order_of_checks():
    ctor = record(A, 0, (), [method(INIT, params=[a])])
    yield "a let's value before its name", in_function(let(a), let(a, use(b)))
    yield "a value before instanceof's class", in_function(do(is_a(use(b), c)))
    yield "both sides before the assignment", in_function(put(use(p), use(b)), params=[p])
    yield "left before right", in_function(put(use(a), use(b)))
    yield "no method before the arguments", sheet(unit(do(static(A, m, use(b))), classes=[record(A)]))
    yield "core class before the arguments", sheet(unit(do(call(use(DICT), use(b)))))
    yield "core method before the arguments", sheet(unit(do(static(STRING, m, use(b)))))
    yield "arguments counted before they are walked", sheet(unit(do(static(A, INIT, use(b), nil())), classes=[ctor]))
    ctor = record(A, 0, (), [method(INIT, params=[a])])
    yield "constructor arguments are walked", sheet(unit(do(call(use(A), use(b), nil())), classes=[ctor]))
    yield "parent before the methods", sheet(unit(classes=[record(A, B, (), [method(m, do(use(b)))])]))
    yield "hoisting before an earlier break", in_function(stop(), let(a, lit([], nil_body())), let(a, lit([], nil_body())))
    yield "break before a later let", in_function(let(a), stop(), let(a))
    yield "the walk before circles", sheet(unit(do(use(b)), classes=[record(A, A)]))


def constructors():
    def one_init():
        return record(A, 0, (), [method(INIT, params=[a, b])])
    yield "outer call before the inner", sheet(unit(do(call(use(A), call(use(B)), nil(), nil())),
                                                    classes=[one_init(), record(B)]))
    yield "inner call alone is wrong", sheet(unit(do(call(use(A), call(use(B)))), classes=[one_init(), record(B)]))
    yield "all classes before any call", sheet(unit(do(call(use(A))), classes=[record(A)]), unit(classes=[record(B, B)]))
    yield "calls in the order of the walk", sheet(unit(do(call(use(A))), do(call(use(B))),
                                                       classes=[record(B), one_init()]))
    yield "inherited init", sheet(unit(do(call(use(B), nil())), classes=[record(B, A), one_init()]))
    yield "own init replaces", sheet(unit(do(call(use(B), nil())),
                                          classes=[one_init(), record(B, A, (), [method(INIT, params=[a])])]))
    for core in (UI_EVENT, AUDIO_NEEDED, AUDIO_DATA):
        yield "a core record has no init", sheet(unit(do(call(use(core)))))
    yield "child of a core record", sheet(unit(do(call(use(A))), classes=[record(A, AUDIO_DATA, [a])]))
    yield "init without parameters", sheet(unit(do(call(use(A))), classes=[record(A, 0, (), [method(INIT)])]))


def class_methods():
    def one_method():
        return record(A, 0, (), [method(m, params=[a])])
    yield "before the declaration", sheet(unit(do(static(A, m, nil())), classes=[one_method()]))
    child, parent = record(B, A), one_method()
    yield "inherited, after the declaration", sheet(unit(declare(parent), declare(child), do(static(B, m, nil())),
                                                         classes=[parent, child], declared=False))
    yield "inside the method itself", sheet(unit(classes=[record(A, 0, (), [method(m, do(static(A, m)))])]))
    yield "a member that is no callee", sheet(unit(do(member(use(A), m)), do(call(nil(), member(use(A), m))),
                                                   classes=[one_method()]))
    yield "a let hides the class", sheet(unit(let(A), do(static(A, m)), classes=[one_method()]))
    yield "a hidden core class", in_function(let(STRING), do(static(STRING, m)), do(call(use(STRING))))
    yield "a core record has no methods", sheet(unit(do(static(UI_EVENT, m))))
    yield "two members", sheet(unit(do(call(member(member(use(A), m), n))), classes=[one_method()]))


def inheritance():
    def trio(first, second, third):
        return sheet(unit(classes=[record(A, first), record(B, second), record(C, third)]))
    yield "the ancestor's parent first", trio(C, STRING, STRING)
    yield "an ancestor before a circle", trio(C, B, STRING)
    yield "a circle above", trio(B, B, 0)
    yield "a circle of three", trio(B, C, A)
    yield "a circle of two above", trio(B, C, B)
    yield "a chain upwards", trio(B, C, 0)
    yield "fields", sheet(unit(classes=[record(B, A, [q, c, a]), record(A, 0, [p, q])]))
    yield "fields of three", sheet(unit(classes=[record(C, B, [a, p]), record(B, A, [b]), record(A, UI_EVENT, [p, 14])]))
    yield "methods replaced in place", sheet(unit(classes=[
        record(B, A, (), [method(n), method(g), method(m)]), record(A, 0, (), [method(m), method(INIT), method(n)])]))
    far = unit(classes=[record(A, 0, [p])])
    yield "a parent of another unit", sheet(unit(imports=[bring(far, A)], classes=[record(B, A, [q])]), far)
    far = unit(classes=[record(A, STRING, [p])])
    yield "a parent of another unit without a record", sheet(
        unit(imports=[bring(far, everything=1)], classes=[record(B, A)]), far)
    hidden = record(A, STRING)
    yield "a hidden parent", sheet(unit(let(STRING), declare(hidden), classes=[hidden], declared=False))
    yield "a parent that is a function", sheet(unit(let(f, lit([], nil_body())), classes=[record(A, f)]))


def fields():
    def assign(field, value=None):
        return put(member(nil(), field), value or nil())
    one = record(A, 0, [a])
    one.kids.append(method(m, assign(b, lit([], assign(c), one)), assign(a), assign(p)))
    yield "the right side registers first", sheet(unit(classes=[one]))
    one = record(A)
    one.kids.append(method(m, put(member(lit([], assign(c), one), b), lit([], assign(q), one))))
    yield "the left side registers first", sheet(unit(classes=[one]))
    one = record(A, 0, (), [method(m, do(lit([], assign(b))))])
    yield "a literal without class registers nothing", sheet(unit(classes=[one]))
    one = record(A)
    yield "a literal before the class", sheet(unit(do(lit([], assign(b), one)), assign(c), classes=[one]))
    one, two = record(A, B), record(B)
    yield "registered in a parent after its child", sheet(unit(
        declare(one), declare(two), do(lit([], assign(b), two)), do(lit([], assign(a), one)), classes=[one, two],
        declared=False))
    yield "no field of an index", sheet(unit(classes=[record(A, 0, (), [
        method(m, put(Node(53, kids=[member(nil(), b), nil()]), nil()))])]))


def scopes():
    yield "let after hoisted", in_function(let(a, lit([], nil_body())), let(a))
    yield "let before hoisted", in_function(let(a), let(a, lit([], nil_body())))
    yield "two hoisted in a unit", sheet(unit(let(a, lit([], nil_body())), var(a, lit([], nil_body()))))
    yield "two mutable hoisted in a unit", sheet(unit(var(a, lit([], nil_body())), var(a, lit([], nil_body()))))
    yield "hoisted in a block of a unit", sheet(
        unit(block(var(a, lit([], nil_body())), let(b), let(g, lit([], give(use(g)))))))
    yield "globals of hoisted first", sheet(unit(let(b), var(a, lit([], nil_body())), let(c), do(use(a))))
    yield "literal lets in parts", in_function(
        when(nil(), let(a, lit([], nil_body())), let(a, lit([], nil_body()))),
        loop(let(a, lit([], nil_body())), nil(), let(a, lit([], nil_body())), let(a, lit([], nil_body()))), let(a))
    yield "a literal let in a part is not declared", in_function(when(nil(), let(a, lit([], nil_body()))), do(use(a)))
    yield "a let in a branch stays", in_function(when(nil(), let(a)), do(use(a)))
    yield "a let in both branches", in_function(when(nil(), let(a), let(a)))
    yield "a bare body lets a parameter", sheet(unit(let(f, lit([p], let(p)))))
    yield "a block body hides a parameter", in_function(let(p), do(use(p)), params=[p])
    yield "a literal let of a parameter", sheet(unit(let(f, lit([p], let(p, lit([], nil_body()))))))
    yield "for scopes", in_function(loop(let(a), use(a), do(use(a)), let(a)))
    yield "for body in a block", in_function(loop(let(a), use(a), do(use(a)), block(let(a))), let(a))
    yield "a let ends with its block", in_function(block(let(a)), do(use(a)))
    yield "a let is not open in its value", in_function(let(a, use(a)))
    yield "a hoisted literal is", in_function(let(a, lit([], give(use(a)))))
    yield "null declared", in_function(do(use(p)), var(NULL), put(use(NULL), nil()), params=[p])
    yield "null assigned", sheet(unit(put(use(NULL), nil())))
    yield "instanceof a hidden class", in_function(let(STRING), do(is_a(nil(), STRING)))
    yield "constant lets", in_function(
        let(a, nil(), 4), let(b), do(lit([], give(array(use(a), use(b))))), put(use(a), nil()))
    yield "a constant let's name", in_function(let(a), let(a, nil(), 2))
    for name, params in ((STRING, []), (f, []), (p, [p])):
        yield "assigned, and fixed", in_function(put(use(name), nil()), params=params)
    yield "other things assigned", in_function(put(host(MAIN_UNIT), nil()), put(nil(), nil()), put(call(nil()), nil()))
    yield "a parameter twice", sheet(unit(do(lit([p, q, p, q], nil_body()))))
    yield "slots in siblings", in_function(let(a), block(let(b), let(c)), block(var(b)), let(g), block(let(c)))


def loops():
    def ends(body):
        return loop(do(nil()), nil(), do(nil()), body)
    yield "in a step", in_function(loop(do(nil()), nil(), stop(), stop()))
    yield "in an init", in_function(loop(stop(), nil(), do(nil()), block()))
    yield "in an init inside a loop", in_function(ends(loop(stop(), nil(), do(nil()), block())))
    yield "in a literal of a test", in_function(ends(do(lit([], stop()))))
    yield "after a literal in a loop", in_function(ends(block(do(lit([], nil_body())), stop())))
    inner = record(A, 0, (), [method(m, stop())])
    yield "in a method declared in a loop", sheet(unit(ends(declare(inner)), classes=[inner], declared=False))
    inner = record(A, 0, (), [method(m, ends(stop()))])
    yield "after a method declared in a loop", sheet(unit(ends(block(declare(inner), stop())), stop(), classes=[inner],
                                                          declared=False))


def captures():
    yield "in the order of use", in_function(
        let(a), var(b), do(lit([], give(array(use(b), use(p), use(a), use(b))))), params=[p])
    yield "through three functions", in_function(
        var(a), give(lit([q], block(let(b), give(lit([], give(lit([], give(array(use(q), use(a), use(b), use(p)))))))))),
        params=[p])
    yield "first by an inner literal", in_function(
        var(a), var(b), give(lit([], block(do(lit([], give(use(b)))), do(use(a)), do(use(b))))))
    yield "siblings share an escape", in_function(block(var(a), do(lit([], give(use(a))))), block(var(b)), block(let(c)))
    yield "assigned in a literal", in_function(
        var(a), do(lit([], put(use(a), nil()))), let(b), do(lit([], put(use(b), nil()))))
    yield "a hoisted literal captures itself", in_function(let(a, lit([], give(lit([], give(use(a)))))))
    yield "a mutable hoisted literal captures itself", in_function(var(a, lit([], give(use(a)))))
    yield "an inner name hides an outer", in_function(
        var(a), do(lit([a], give(use(a)))), do(lit([], block(let(a), do(use(a))))))
    yield "globals are not captured", sheet(unit(var(a), let(f, lit([], give(array(use(a), use(f)))))))
    yield "slots go on across functions", in_function(
        let(a), let(b), do(lit([], block(let(c), do(lit([], let(g)))))), let(c))
    yield "used before and after a literal", in_function(
        var(a), give(lit([], block(do(use(a)), do(lit([], give(use(a)))), put(use(a), nil())))))
    held = record(A, 0, (), [method(m, do(use(a)), give(lit([], give(use(p)))), params=[p])])
    yield "a method in a unit", sheet(unit(var(a), block(var(b), declare(held)), classes=[held], declared=False))
    deep = give(array(use(p), use(q)))
    for i in range(12):
        deep = give(lit([q] if i == 6 else [], deep))
    yield "twelve functions deep", in_function(deep, params=[p])


def imports():
    def far(**more):
        return unit(let(f, lit([], nil_body())), **more)

    def export(name, of):
        return Node(7, name, of.kids[-1])

    other = unit()
    rich = far(exports=[export(a, other)], classes=[record(a, 0, [p])], consts=[Node(8, a, 3), Node(8, b, 4)])
    yield "all with a name twice", sheet(unit(imports=[bring(rich, everything=1)]), rich, other)
    rich = far(exports=[export(a, other)], classes=[record(a), record(c)],
               consts=[Node(8, a, 3), Node(8, c, 4), Node(8, g, 1)])
    yield "functions, classes, constants", sheet(
        other, unit(do(array(use(a), use(c), use(g))), imports=[bring(rich, a, c, g)]), rich)
    yield "an unknown name, then a name twice", sheet(other, unit(imports=[bring(rich, a, b, a)]), rich)
    yield "a name twice, then an unknown name", sheet(other, unit(imports=[bring(rich, a, a, b)]), rich)
    plain = far(exports=[export(a, other)], classes=[record(B)], consts=[Node(8, g, 2)])
    yield "all, then a listed name", sheet(other, unit(imports=[bring(plain, B, everything=1)]), plain)
    yield "two imports", sheet(other, unit(imports=[bring(plain, g), bring(plain, everything=1)]), plain)
    yield "all and its uses", sheet(other, plain, unit(
        do(array(use(a), use(B), use(g))), put(use(g), nil()), imports=[bring(plain, everything=1)]))
    yield "a class that is imported", sheet(other, unit(imports=[bring(plain, B)], classes=[record(A), record(B)]), plain)
    yield "hidden by a let", sheet(other, unit(let(B), do(use(B)), imports=[bring(plain, B)]), plain)
    hiding = unit(exports=[export(STRING, other)])
    yield "an import hides the core", sheet(other, unit(do(is_a(nil(), STRING)), imports=[bring(hiding, STRING)]), hiding)
    yield "itself, all", sheet(importing_itself(unit(), 1))
    yield "itself, a name", sheet(importing_itself(unit(do(use(a))), 0, a))
    yield "globals of two units", sheet(unit(let(a), var(b)), unit(let(a), block(var(c))), main=1)


def importing_itself(each, everything, *names):
    each.kids[:0] = [bring(each, *names, everything=everything), Node(7, a, each.kids[-1])]
    return each


def host_constants():
    def uses():
        return [do(host(MAIN_UNIT)), do(lit([], give(host(MAIN_UNIT))))]
    held = record(A, 0, (), [method(m, *uses())])
    yield "MAIN_UNIT", sheet(unit(*uses()), unit(*uses(), classes=[held]), main=1)
    yield "another", sheet(unit(do(host(a))))
    yield "MAIN_UNIT as a name", sheet(unit(let(MAIN_UNIT), do(use(MAIN_UNIT)), do(host(MAIN_UNIT))))
    yield "MAIN_UNIT undeclared", sheet(unit(do(use(MAIN_UNIT))))


def programs():
    groups = [order_of_checks, constructors, class_methods, inheritance, fields, scopes, loops, captures, imports,
              host_constants]
    for group in groups:
        for what, root in group():
            yield f"{group.__name__}: {what}", root


# later programs

def rows_against_the_walk():
    first, second = use(b), use(a)
    yield "captures", in_function(let(a), var(b), give(lit([], block(do(first), do(second))))), [(second, first)]
    first, second = use(b), use(p)
    inner = lit([], give(first))
    yield "captures of an inner literal", in_function(
        var(b), give(lit([], block(do(inner), do(second)))), params=[p]), [(second, first)]
    first, second = use(b), use(a)
    deep = lit([], give(lit([], give(first))))
    yield "captures by literals of two depths", in_function(
        var(a), var(b), give(lit([], block(do(deep), do(lit([], give(second))))))), [(second, first)]
    first, second = use(A), use(B)
    yield "constructor calls, 20", sheet(
        unit(do(call(first)), do(call(second)), classes=[record(A), record(B)])), [(second, first)]
    first, second = use(A), use(A)
    yield "constructor calls, 21", sheet(unit(
        do(call(first, nil())), do(call(second)), classes=[record(A, 0, (), [method(INIT)])])), [(second, first)]
    for what, parents in (("19", (STRING, DICT)), ("18", (A, B)), ("18 and 19", (A, STRING)), ("19 and 18", (STRING, B))):
        first, second = record(A, parents[0]), record(B, parents[1])
        yield f"classes of two units, {what}", sheet(unit(classes=[first]), unit(classes=[second])), [(second, first)]
    first = record(A, B, [a, p], [method(m)])
    second = record(B, 0, [p, q], [method(n), method(m)])
    far = unit(classes=[second])
    yield "classes of two units, inherited", sheet(unit(imports=[bring(far, B)], classes=[first]), far), [(second, first)]
    one, two = record(A, STRING), record(B, DICT)
    yield "classes against their declarations", sheet(
        unit(declare(two), declare(one), classes=[one, two], declared=False)), []
    one, two = record(A, A), record(B, B)
    yield "circles against their declarations", sheet(
        unit(declare(two), declare(one), classes=[one, two], declared=False)), []
    one = record(A, 0, [q, p])
    declared = declare(one)
    yield "fields after the class declaration", sheet(unit(declared, let(a), classes=[one], declared=False)), [
        (declared, field) for field in one.kids]
    first, second = let(a), var(b)
    yield "globals", sheet(unit(block(first), second, do(use(b)))), [(second, first)]
    first, second = (put(member(nil(), name), nil()) for name in (b, c))
    one = record(A, 0, (), [fun(m, [], block(first)), fun(n, [], block(second))])
    yield "registered fields", sheet(unit(classes=[one])), [(second, first)]
    first, second = use(a), use(b)
    yield "names unknown", in_function(do(first), do(second)), [(second, first)]


def later_order():
    yield "arguments left to right", in_function(do(call(nil(), use(a), use(b)))), []
    yield "a later unit before circles", sheet(unit(classes=[record(A, A)]), unit(do(use(b)))), []
    yield "a later unit before calls", sheet(unit(do(call(use(A))), classes=[record(A)]), unit(stop())), []


def later_scopes():
    yield "a constant let takes no slot", in_function(let(a, nil(), 4), let(b), do(array(use(a), use(b)))), []
    yield "a constant let between two", in_function(
        var(a), let(b, nil(), 2), let(c), do(lit([], give(array(use(b), use(c)))))), []
    yield "a constant let takes no global", sheet(unit(let(a), let(b, nil(), 3), var(c), do(use(b)))), []
    yield "two functions hoisted in a unit", sheet(unit(let(a, lit([], nil_body())), let(a, lit([], nil_body())))), []
    yield "a class of an earlier unit", sheet(unit(classes=[record(A)]), unit(do(use(A)))), []
    far = unit(exports=[Node(7, a, 0)])
    far.kids[0].b = far.kids[-1]
    yield "an import of an earlier unit", sheet(far, unit(imports=[bring(far, a)]), unit(do(use(a)))), []
    yield "a let of an earlier unit", sheet(unit(let(a)), unit(do(use(a)))), []
    named = record(STRING, 0, [a], [method(m)])
    yield "a class with a core name", sheet(unit(
        do(is_a(nil(), STRING)), do(static(STRING, m)), classes=[named, record(B, STRING)])), []
    yield "mutable siblings that both escape", in_function(
        block(var(a), do(lit([], give(use(a))))), block(var(b), do(lit([], give(use(b)))))), []
    yield "a capture by an inner literal alone, then another", in_function(
        var(a), var(b), give(lit([], block(do(lit([], give(use(b)))), do(use(a)))))), []


def later_loops():
    def ends(*stmts):
        return loop(do(nil()), nil(), do(nil()), block(*stmts))
    yield "break after an inner loop", in_function(ends(ends(), stop())), []
    yield "continue after an inner loop", sheet(unit(ends(ends(again()), again()))), []
    yield "break after both", in_function(ends(ends()), stop()), []
    yield "continue in no loop", in_function(again()), []


def later_classes():
    def three():
        return [record(C, B, [c], [method(q)]), record(B, A, [b], [method(n)]),
                record(A, 0, [a], [method(m), method(INIT, params=[p])])]
    yield "a grandparent's methods and fields", sheet(unit(do(call(use(C))), classes=three())), []
    yield "a grandparent's methods, from above", sheet(unit(do(call(use(C))), classes=three()[::-1])), []
    yield "a grandparent's init, arguments", sheet(unit(do(call(use(C), nil())), classes=three())), []
    four = [record(g, C, (), [method(m)])] + three()
    yield "methods of four, one replaced", sheet(unit(classes=four)), []
    for what, params, args in (("neither parameters nor arguments", 0, 0), ("an argument and no parameter", 0, 1),
                               ("a parameter and no argument", 1, 0), ("two parameters and one argument", 2, 1),
                               ("one parameter and two arguments", 1, 2)):
        one = record(A, 0, (), [method(m, params=[p, q][:params])])
        yield f"a class method with {what}", sheet(unit(do(static(A, m, *[nil() for _ in range(args)])), classes=[one])), []
    for what, params, args in (("one parameter and no argument", 1, 0), ("two parameters and no argument", 2, 0),
                               ("one parameter and an argument", 1, 1)):
        one = record(A, 0, (), [method(INIT, params=[p, q][:params])])
        yield f"init with {what}", sheet(unit(do(call(use(A), *[nil() for _ in range(args)])), classes=[one])), []


def later_imports():
    other = unit()

    def offers(functions=(), classes=(), consts=()):
        return unit(exports=[Node(7, name, other.kids[-1]) for name in functions],
                    classes=[record(name) for name in classes], consts=[Node(8, name, 1) for name in consts])

    rich = offers([a], [a])
    yield "all before an unknown name", sheet(unit(imports=[bring(rich, b, everything=1)]), rich, other), []
    rich = offers([a], [B], [g])
    for names in ((a, B, g), (g, B, a), (B, g), (g, B), (a, g), (a, B), (B, a)):
        far = offers([a], [B], [g])
        yield "all with several names that are there", sheet(
            other, unit(imports=[bring(rich, *names), bring(far, everything=1)]), rich, far), []
    for sort in ("functions", "classes", "consts"):
        rich, far = offers(**{sort: [a, b]}), offers(**{sort: [b, a]})
        yield f"all, {sort} in their order", sheet(
            other, unit(imports=[bring(rich, a, b), bring(far, everything=1)]), rich, far), []
    rich = offers([a], [B], [g])
    yield "an unknown name, then one that is there", sheet(
        other, unit(imports=[bring(rich, a), bring(rich, b, a)]), rich), []
    yield "one that is there, then an unknown name", sheet(
        other, unit(imports=[bring(rich, a), bring(rich, a, b)]), rich), []
    rich = offers(classes=[A, B])
    yield "two classes that are imported", sheet(unit(imports=[bring(rich, B, A)], classes=[record(A), record(B)]), rich), []
    yield "two classes that are imported, the other way", sheet(
        unit(imports=[bring(rich, everything=1)], classes=[record(B), record(A)]), rich), []


def later_chances():
    """What only a random sheet now and then has shown."""
    yield "a capture and an escape in an inner literal", in_function(
        var(b), do(lit([], block(var(a), do(use(b)), do(lit([], give(use(a)))))))), []
    yield "a let after a literal whose body is one", in_function(do(lit([], let(a))), let(b), do(use(b))), []
    yield "a loop after a let", in_function(let(a), loop(let(b), nil(), do(use(b)), block())), []
    yield "the step before the body", in_function(loop(do(nil()), nil(), do(use(a)), do(use(b)))), []
    yield "init undeclared", in_function(do(use(INIT))), []
    far = unit(classes=[record(A)])
    near = unit(imports=[bring(far, everything=1)])
    yield "a class that an imported unit imports", sheet(unit(do(use(A)), imports=[bring(near, everything=1)]), near, far), []


def later_programs():
    groups = [rows_against_the_walk, later_order, later_scopes, later_loops, later_classes, later_imports,
              later_chances]
    for group in groups:
        for what, root, earlier in group():
            yield f"{group.__name__}: {what}", root, earlier


def later_sheets():
    """What each later program shows, and its sheet, with rows in one order."""
    return in_one_order(later_programs())


def in_one_order(programs):
    for i, (what, root, earlier) in enumerate(programs):
        order = "breadth" if earlier else ("preorder", "random", "runs")[i % 3]
        yield what, Sheet(root, NAMES, random.Random(i), order, earlier)


# programs for distances

def nested(count, inner):
    """A return of a literal, whose body is the same again, and so on; the body of the last one is `inner`."""
    for _ in range(count):
        inner = give(lit([], inner))
    return inner


def counted_functions():
    yield "three functions", in_function(nested(2, give(use(p))), params=[p]), []
    yield "four functions, a mutable local", in_function(var(a), nested(3, give(use(a)))), []
    yield "blocks around the use", in_function(let(a), do(lit([], block(block(block(do(use(a))))))), do(use(a))), []
    yield "blocks around the literal", in_function(let(a), block(block(do(lit([], give(use(a))))), do(use(a)))), []
    yield "the declaration in a block", in_function(block(block(var(a), do(lit([], give(use(a)))), block(do(use(a)))))), []
    yield "a parameter and blocks", in_function(block(do(use(p)), block(do(lit([], block(do(use(p))))))), params=[p]), []
    yield "loops around the use", in_function(
        var(a), do(lit([], loop(do(use(a)), use(a), put(use(a), nil()), loop(do(nil()), nil(), do(nil()), do(use(a))))))), []
    yield "loops around the literal", in_function(
        let(a), loop(do(nil()), use(a), do(use(a)), loop(do(nil()), nil(), do(nil()), do(lit([], give(use(a))))))), []
    yield "the declaration in a loop", in_function(
        loop(var(a), lit([], give(use(a))), do(lit([], give(use(a)))), block(do(use(a)), do(lit([], block(do(use(a)))))))), []
    yield "branches", in_function(
        let(a), when(use(a), when(nil(), do(use(a)), do(lit([], when(use(a), do(use(a)), block(do(use(a))))))))), []
    yield "functions that have ended", in_function(
        let(a), do(lit([], nested(2, nil_body()))), let(b, lit([], nil_body())), do(lit([], give(use(a)))), do(use(a))), []
    yield "functions that begin later", in_function(
        let(a), do(lit([], give(use(a)))), do(lit([], nil_body())), do(use(a)), nested(3, nil_body())), []
    used = record(A, 0, (), [method(m, nested(1, nil_body()))])
    later = unit(declare(used), let(f, lit([p], nested(1, give(use(p))))), classes=[used], declared=False)
    yield "functions of a class and of an earlier unit", sheet(unit(let(g, lit([], nested(2, nil_body())))), later), []
    yield "literals with parameters and with locals", in_function(
        let(a), give(lit([q], block(let(b), give(lit([], give(lit([c], give(array(use(a), use(q), use(b), use(c))))))))))), []
    yield "literals with a name", in_function(
        var(a), give(lit([], give(lit([q], give(array(use(a), use(p), use(q))), name=g)), name=p)), params=[p]), []
    held = record(A)
    yield "literals with a class", sheet(unit(let(f, lit([p], block(
        var(a), give(lit([], give(lit([], put(member(use(p), m), use(a)), held)), held))), held)), classes=[held])), []
    held = record(A, 0, (), [method(m, var(a), do(array(use(p), use(a))), nested(1, block(
        do(array(use(a), use(p))), give(lit([q], give(array(use(q), use(p), use(a))))))), params=[n, p])])
    yield "in a method", sheet(unit(classes=[held])), []
    held = record(A, 0, (), [method(m, loop(var(a), use(a), put(use(a), nil()), nested(1, give(use(a)))))])
    yield "in a method declared in a block", sheet(
        unit(var(a), block(var(b), declare(held)), classes=[held], declared=False)), []
    yield "fixed names", in_function(var(STRING), nested(2, block(
        put(use(STRING), use(NULL)), do(lit([INIT], give(array(use(INIT), use(NULL), use(MAIN_UNIT))))))),
        params=[NULL, MAIN_UNIT]), []


def each_use_by_itself():
    yield "used again", in_function(
        var(a), nested(1, block(do(use(a)), do(array(use(a), use(a))), nested(1, give(array(use(a), use(a)))), do(use(a))))), []
    further = nested(1, block(do(use(p)), nested(1, give(use(p)))))
    yield "used again further in", in_function(
        do(lit([], give(use(p)))), nested(1, block(do(use(p)), further)), params=[p]), []
    yield "used by outer functions afterwards", in_function(
        let(a), nested(1, block(nested(1, block(nested(1, give(use(a))), do(use(a)))), do(use(a)))), do(use(a))), []
    yield "used by an inner function of one that does not use it", in_function(
        var(a), nested(2, give(use(a))), nested(1, give(use(a))), do(use(a))), []
    inner, outer = use(a), use(a)
    yield "the outer use has the lower row", in_function(
        let(a), nested(1, block(nested(2, give(inner)), do(outer)))), [(outer, inner)]
    inner, outer = use(a), use(a)
    yield "the outer use has the higher row", in_function(
        let(a), nested(1, block(do(outer), nested(2, give(inner))))), [(inner, outer)]
    yield "several at different distances", in_function(
        let(a), give(lit([q], block(var(b), give(lit([], give(array(use(b), use(p), use(q), use(a), use(b)))))))), params=[p]), []
    yield "several, the farthest first", in_function(
        var(a), give(lit([q], give(lit([c], give(lit([], give(array(use(p), use(a), use(q), use(c))))))))), params=[p]), []
    yield "mutable siblings on one slot", in_function(
        block(var(a), do(lit([], give(use(a))))), block(var(b), nested(3, give(use(b))), do(use(b)))), []
    yield "a name at two distances", in_function(var(a), give(lit([], block(
        do(use(a)), block(let(a), do(use(a)), nested(1, give(use(a)))), nested(1, give(use(a))))))), []
    yield "a name hidden by a parameter", in_function(
        do(lit([], give(lit([p], block(do(use(p)), nested(1, give(use(p)))))))), nested(2, give(use(p))), params=[p]), []
    yield "a parameter hidden by a local of its function", in_function(
        let(p), do(use(p)), nested(2, block(do(use(p)), let(p), do(use(p)), nested(1, give(use(p))))), params=[p]), []
    yield "assigned", in_function(var(a), nested(1, block(
        put(use(a), use(a)), nested(1, put(use(a), call(use(a)))), do(lit([], put(use(a), nil())))))), []
    yield "in all places of expressions", in_function(var(a), nested(2, block(
        do(call(use(a), use(a))), do(call(member(use(a), m), use(a))), put(member(use(a), m), use(a)), do(is_a(use(a), STRING)),
        put(Node(53, kids=[use(a), use(a)]), Node(48, kids=[Node(49, kids=[use(a)])])), Node(28, kids=[Node(56, kids=[use(a)])]),
        let(b, Node(58, kids=[use(a), Node(57, kids=[use(a), use(b)]), use(a)])))), params=[b]), []
    yield "a hoisted literal in itself", in_function(let(g, lit([], give(use(g)))), do(use(g))), []
    yield "a hoisted literal in itself, further in", in_function(
        var(g, lit([p], block(do(use(g)), nested(1, give(array(use(g), use(p)))))))), []
    yield "hoisted literals in each other", in_function(
        do(use(b)), let(a, lit([], give(use(b)))), let(b, lit([], nested(1, give(array(use(a), use(b))))))), []


def nothing_captured():
    def uses(*names):
        """All the names here, one function in, and three."""
        here, near, far = (array(*map(use, names)) for _ in range(3))
        return block(do(here), nested(1, block(do(near), nested(2, give(far)))))

    inner = block(let(c), let(f, lit([], uses(a, b, c))), put(use(b), use(c)))
    yield "globals", sheet(unit(let(a), var(b), inner, uses(a, b))), []
    inner = block(let(a, lit([], uses(a))), do(array(use(a), use(f))), uses(f))
    yield "functions", sheet(unit(let(f, lit([], uses(f, g))), var(g, lit([], uses(g))), inner)), []
    held = record(A, 0, (), [method(m, uses(A, STRING, UI_EVENT))])
    yield "classes", sheet(unit(uses(A, STRING, UI_EVENT), classes=[held])), []
    yield "constants", in_function(let(a, nil(), 4), uses(a), nested(2, block(let(b, nil(), 2), uses(a, b)))), []
    far = unit(let(f, lit([], nil_body())), classes=[record(B)], consts=[Node(8, g, 2)])
    far.kids[:0] = [Node(7, f, far.kids[-1])]
    yield "imports", sheet(
        unit(uses(f, B, g), let(a, lit([], uses(f, B, g))), imports=[bring(far, f, B), bring(far, g)]), far), []
    yield "its own locals and arguments", in_function(
        let(a), block(let(b), loop(var(c), array(use(c), use(p)), do(use(a)), block(do(array(use(a), use(b), use(c), use(p)))))),
        params=[p]), []
    yield "own ones of an inner function", in_function(nested(2, give(lit([p], block(let(a), loop(
        var(b), use(b), do(use(p)), block(do(array(use(a), use(b), use(p)))))))))), []
    told = record(A, 0, (), [method(m)])
    yield "other rows", sheet(unit(let(f, lit([p], block(var(a), nested(2, block(
        let(b), var(c), let(q, nil(), 2), let(g, lit([], nil_body())), do(is_a(use(a), A)), do(host(MAIN_UNIT)), do(static(A, m)),
        loop(let(n, lit([], nil_body())), nil(), do(nil()), do(nil())), do(use(p))))))), classes=[told])), []


def farthest():
    """The depth of 64 lets a method's parameter be used 19 literals in, and a literal's 18."""
    for count in (18, 19, 20):
        held = record(A, 0, (), [fun(m, [p], nested(count, give(use(p))))])
        yield f"a method's parameter, {count} literals in", sheet(unit(classes=[held])), []
    for count in (17, 18, 19):
        yield f"a literal's parameter, {count} literals in", sheet(unit(do(lit([p], nested(count, give(use(p))))))), []
    each = give(use(p))
    for _ in range(13):
        each = give(array(use(p), lit([], each), use(p)))
    yield "a parameter at every distance up to 13", sheet(unit(do(lit([p], each)))), []


def distance_programs():
    for group in (counted_functions, each_use_by_itself, nothing_captured, farthest):
        for what, root, earlier in group():
            yield f"{group.__name__}: {what}", root, earlier


def distance_sheets():
    return in_one_order(distance_programs())
