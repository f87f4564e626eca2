"""What a refused line of `ratio_expressions` is told to type. The first row that fits the line at the refused place says it."""
import re

CALLS = {}
OPERAND = r"[\w)]"

# What the line is up to the place, what is from there on, and the hint.
SLIPS = [(re.compile(before + r"\Z", re.DOTALL | re.ASCII), re.compile(rest, re.DOTALL | re.ASCII), text) for before, rest, text in [
    (r".*%[ \t]*", r"\Z", "x/100 for x%, and (1/2)/100 for 1/2%"),
    (r".*=[ \t]*", r"\Z", "2+3 for 2+3= or =2+3"),
    (rf".*{OPERAND}[ \t]*", r"\Z", "(2+3) for (2+3"),
    (r".*", r"\Z", None),
    (r".*/\d+[ \t]*", r"\.?\d|[¼½¾⅐-⅞↉]", "2/(1 1/2) for 2/1 1/2, and 1/2 * 1/3 for 1/2 1/3"),
    (r".*", r"\.\d", "1299000 for 1.299.000"),
    (r".*", r"\d*/\d+[ \t]*(\^|\*\*)", "(1 1/2)^2 for 1 1/2^2"),
    (r".*", r"\d+⁄", "1 1/2, with the slash of the keyboard"),
    (r".*", r"\d|[¼½¾⅐-⅞↉]", "2*3 or 2 + 3 for 2 3, and 1299 for 1 299"),
    (r".*", r"[xX]\d*(?!\w)", "2*3 for 2 x 3, and 3*x for 3x"),
    (r".*", r"mod(?!\w)", "12 % 5 for 12 mod 5, with the sign of 12"),
    (r".*", r"div(?!\w)", "floor(7/2) for 7 // 2"),
    (r".*", r"times(?!\w)", "2*3 for 2 x 3, and 3*x for 3x"),
    (r".*", r"of(?!\w)", "1/2 * 3 for 1/2 of 3"),
    (r".*", r"and(?!\w)", "1 1/2 for 1 and 1/2"),
    (r".*", r"_", "1299 for 1_299"),
    (r".*", r"[A-Za-z]", "3*x for 3x, and 1/2 for 1/2 cup"),
    (r".*", r"\(", "2*(3+4) for 2(3+4)"),
    (r".*", r"\)", "(2+3) for (2+3)), (2+) or ()"),
    (rf".*{OPERAND}[ \t]*", r",", "12.50 for 12,50, and 1299 for 1,299"),
    (r".*", r",", None),
    (r".*%[ \t]*", r"[*/%^<=>×÷≠≤≥·∙⋅⁄]|!=", "x/100 for x%, and (1/2)/100 for 1/2%"),
    (r"[ \t]*", r"=", "2+3 for 2+3= or =2+3"),
    (r"[ \t]*", r"[*/%^<>×÷≠≤≥·∙⋅⁄]|!=", "ans * 5 for * 5"),
    (r".*=[ \t]*", r"=", "1/2 = 0.5 for 1/2 == 0.5, and (x) = 1 for x == 1"),
    (r".*[<>][ \t]*", r"=", "2 <= 3 for 2 =< 3, 3 >= 2 for 3 => 2, and 2 != 3 for 2 <> 3"),
    (rf".*{OPERAND}[ \t]*", r"=", "b = 1 and then a = b for a = b = 1"),
    (r".*", r"=", "x = x + 1 for x += 1"),
    (r".*[<=][ \t]*", r"[<>≠≤≥]|!=", "2 <= 3 for 2 =< 3, 3 >= 2 for 3 => 2, and 2 != 3 for 2 <> 3"),
    (rf".*{OPERAND}[ \t]*", r"[<>≠≤≥]|!=", "1 < 2 and then 2 < 3 for 1 < 2 < 3"),
    (r".*/[ \t]*", r"[/÷⁄]", "floor(7/2) for 7 // 2"),
    (rf".*{OPERAND}[ \t]*", r"%", "x/100 for x%, and (1/2)/100 for 1/2%"),
    (r".*", r"[*/%^<>×÷≠≤≥·∙⋅⁄]|!=", "2 * 3 for 2 * / 3"),
    (r".*", r"\.\.|…", "1/3 for 0.333..."),
    (r".*", r"\.", "5 for 5."),
    (r".*", r":=", "x = 3 for x := 3"),
    (r".*", r"√", "99/70 for sqrt(2), which is no fraction"),
    (r".*", r"π", "22/7 or 355/113 for pi, which is no fraction"),
    (r".*", r"[²³]", "3^2 for pow(3, 2) or for a raised 2"),
    (r".*", r"[\u00a0\u202f]", "a plain space"),
    (r".*", r"[\"'$¢£¥°€’”′″]", "5 for $5 or 5'"),
    (r".*", r"!", "5*4*3*2 for 5!"),
    (r".*", r"#", "2+3 for 2+3 # a note"),
    (r".*", r"[&|]", "1 < 2 and then 2 < 3 for 1 < 2 < 3"),
    (r".*", r":", "16/9 for 16:9"),
    (r".*", r";", "1 and 2 on a line each for 1; 2"),
    (r".*", r"\?", "2+3 for 2+3= or =2+3"),
    (r".*", r"@", "2*3 for 2 x 3, and 3*x for 3x"),
    (r".*", r"[][{}]", "(2+3) for [2+3]"),
]]

# What a name that nothing has is told, and a call that there is not.
NAMES = {name: "22/7 or 355/113 for pi, which is no fraction" for name in ("pi", "Pi", "PI")}
CALLED = {
    "sqrt": "99/70 for sqrt(2), which is no fraction",
    "pow": "3^2 for pow(3, 2) or for a raised 2",
    "mod": "12 % 5 for 12 mod 5, with the sign of 12",
    "sum": "1 + 2 for sum(1, 2)",
    "factorial": "5*4*3*2 for 5!",
}


def hint(line, reason, place):
    """What the line is told, or `None`."""
    before, rest = line[:place], line[place:]
    word = re.match(r"\w*", rest, re.ASCII)[0]
    if reason == "nothing has this name":
        return NAMES.get(word, "x = 3 first, to use x")
    if reason == "there is no such call":
        calls = "floor(7/2), or another of abs, ceil, round, trunc, cents, min, max, gcd, lcm, nearest, between"
        return CALLED.get(word, "x*(3+4) for x(3+4)" if len(word) == 1 else calls)
    if not reason.startswith("the expression "):
        return None
    return next((text for behind, at, text in SLIPS if behind.match(before) and at.match(rest)), None)


def advice(line, reason, place):
    """What the last line of a refusal ends with."""
    text = hint(line, reason, place)
    return f"; type {text}" if text else ""
