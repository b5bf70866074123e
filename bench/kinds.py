"""The kinds of sources that the scripts time: each a name, and what makes a source of about so many bytes."""
import random

from measure import lines

CODE = rb"""/** Finds a user by name. */
function find_user_@(array $users, $name, $limit = 0x1F)
{
    foreach ($users as $key => $user) {
        if ($user['name'] === $name && !empty($user['mail']) || $key >= $limit) {
            return "found $user[name] at {$user['place']['city']} for $name->title" . $key;
        }
    }
    $rows = array('first' => 1, 'second' => [2, 3], 'third' => -$limit * 4 + 5);
    return \App\Users::query()->where((int) $limit, $rows)->first() ?? null;
}
"""
GENERATED = b"".join(b"""class Row%d_@ extends Base implements \\App\\Stored
{
    const TABLE = 'row_%d';
    protected $id%d = 0;

    public function getName%d()
    {
        return isset($this->values['name%d']) ? (string) $this->values['name%d'] : self::TABLE;
    }
}

""" % ((n,) * 6) for n in range(40))
SHORT = b"$a = 1;\n$b = $a + 2;\nf($a, $b);\necho $a;\n"
DENSE = b"$a=[1,2,[3,'k'=>4,$b],5,['x',[6,7]],8];\n"
QUOTED = b"$a = \"one $b two {$c['k']} three $d[0] four ${e} five $f->g six\";\n"
PREFIXED = b"$a = " + b"!" * 490 + b"$b;\n"
TERNARIES = b"echo true ? 'left' : false ? 'middle' : 'right', (1 ? 22 : 333) ? 4444 : 5;\n"
EDITED = (CODE.replace(b"$user['mail']", b"$user{'mail'}").replace(b"{$user['place']['city']}", b"${name}")
          .replace(b"(int)", b"(real)"))
DEEP = b"[" * 240 + b"1" + b"]" * 240 + b";\n"


def declaring(part):
    """What makes sources of a size of one part, over and over, each time with declarations of its own: a number stands in the
    place of its `@`."""
    def source(size):
        front, parts, total = b"<?php\n", [], 6
        while total + len(part) < size:
            text = part.replace(b"@", b"%d" % len(parts))
            parts.append(text)
            total += len(text)
        return front + b"".join(parts)
    return source


WORDS = ("order", "item", "price", "user", "mail", "cart", "page", "title", "date", "path", "value", "name", "list", "total",
         "group", "state", "token", "field", "label", "store")


def one_name(size):
    """A name of half as many parts as bytes: 32,000 of 64 KB."""
    return b"<?php " + b"A\\" * ((size - 8) // 2) + b"A;"


def method(words):
    """A method as people write them, with the comment before it."""
    a, b, c, d = (words.choice(WORDS) for _ in range(4))
    statements = (
        f"        $this->{a} = ${b};\n",
        f"        if (!isset($this->{a}['{b}']) || count(${c}) > {words.randrange(90)}) {{\n            return null;\n        }}\n",
        f"        foreach ($this->get{c.title()}s(${b}) as $key => ${d}) {{\n"
        f"            ${a}[$key] = trim(${d}['{a}']) . ' (' . ${d}['{b}'] . ')';\n        }}\n",
        f"        // the {a} of a {b}, if there is one\n        ${c} = isset(${a}->{b}) ? ${a}->{b} : self::{a.upper()}_{b.upper()};\n",
        f"        throw new \\InvalidArgumentException(sprintf('No {a} for %s', ${b}));\n",
        f"        ${d} = array_map(function (${a}) use (${b}) {{\n            return ${a}->get{b.title()}() + ${b};\n        }}, ${c});\n",
        f"        ${a} = array(\n            '{b}' => ${b},\n            '{c}' => {words.randrange(1000)},\n            '{d}' => $this->{d}(),\n        );\n",
        f"        try {{\n            $this->{a}->save(${b});\n        }} catch (Exception $e) {{\n"
        f"            $this->log->error(\"{a} {{$e->getMessage()}}\", ['{b}' => ${b}]);\n        }}\n",
        f"        ${a} .= \"<td class='{b}'>$${c}</td>\\n\";\n".replace("$$", "$"),
        f"        for ($i = 0; $i < count(${a}); $i++) {{\n            ${b} += (int) ${a}[$i];\n        }}\n",
    )
    body = "".join(words.sample(statements, words.randrange(2, 6)))
    return (f"    /**\n     * The {a} of each {b}.\n     *\n     * @param array ${b}\n     * @return mixed\n     */\n"
            f"    public function {a}{words.choice(WORDS).title()}(${b}, array ${c} = [], ${d} = null)\n    {{\n"
            f"{body}\n        return $this->{d};\n    }}\n\n")


def real(size):
    """A file as a project has it, of classes in a namespace."""
    words = random.Random(size)
    parts = ["<?php\n/* Orders and what belongs to them. */\n\nnamespace Shop\\Orders;\n\nuse Exception;\nuse Shop\\Base\\Record;\n\n"]
    total = 0
    while total < size - 6000:
        name = "".join(words.choice(WORDS).title() for _ in range(3))
        methods = "".join(method(words) for _ in range(words.randrange(2, 8)))
        field = words.choice(WORDS)
        part = f"class {name}{total} extends Record\n{{\n    const {field.upper()} = '{field}';\n\n    /** @var array */\n    private ${field} = [];\n\n{methods}}}\n\n"
        parts.append(part)
        total += len(part)
    return "".join(parts).encode()


KINDS = (
    ("code, no edits", declaring(CODE)),
    ("code, edits", declaring(EDITED)),
    ("a real-looking file", real),
    ("generated code", declaring(GENERATED)),
    ("short statements", lines(SHORT)),
    ("dense arrays", lines(DENSE)),
    ("nested ternaries", lines(TERNARIES)),
    ("quoted texts", lines(QUOTED)),
    ("[ nested 240 deep", lines(DEEP)),
    ("490 prefixes", lines(PREFIXED)),
    ("one name", one_name),
)
