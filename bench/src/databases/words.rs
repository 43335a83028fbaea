//! What large databases are made of.

pub const FLAGS: [&str; 26] = [
    "am", "bs", "bw", "da", "db", "eo", "es", "gn", "hc", "hs", "hz", "in", "km", "mi", "ms", "nc",
    "ns", "os", "pt", "ul", "xb", "xn", "xo", "xs", "xt", "5i",
];

pub const NUMBERS: [&str; 9] = ["co", "li", "it", "lm", "pb", "sg", "ug", "vt", "ws"];

pub const STRINGS: [&str; 98] = [
    "cm", "AL", "DC", "DL", "DO", "IC", "LE", "RI", "SF", "SR", "UP", "ae", "al", "as", "bc", "bl",
    "bt", "cd", "ce", "ch", "cl", "cr", "cs", "ct", "cv", "dc", "dl", "dm", "do", "ds", "ed", "ei",
    "fs", "ho", "i1", "ic", "if", "im", "ip", "is", "k0", "k1", "k2", "k3", "k4", "kb", "kd", "ke",
    "kh", "kl", "kr", "ks", "ku", "le", "ll", "mb", "md", "me", "mh", "mk", "mm", "mo", "mp", "mr",
    "nd", "nl", "nw", "pc", "pf", "pk", "pl", "pn", "po", "ps", "rc", "rs", "sc", "se", "sf", "so",
    "sr", "st", "ta", "te", "ti", "ts", "uc", "ue", "up", "us", "vb", "ve", "vi", "vs", "wi", "eA",
    "F1", "F2",
];

pub const TEXTS: [&str; 30] = [
    "\\E[H\\E[2J", "\\E[%i%d;%dH", "\\E[A", "\\E[B", "\\E[C", "\\E[D", "\\E[K", "\\E[J", "^H",
    "^M", "5\\E[L", "\\E[7m", "\\E[m", "\\E[4m", "\\E[?7h\\E[?1;4;6l", "\\EOP", "\\EOQ", "\\E7",
    "\\E8", "\\EM", "^J", "\\E[1;24r\\E[24;1H", "\\E[%i%d;%dr", "3*\\E[M", "\\E[P", "\\E[4h",
    "\\E=%+ %+ ", "\\200\\E\\072", "20.5*^L", "\\E[2~\\E[0;1;7m",
];

pub const NAME_STARTS: [&str; 24] = [
    "vt", "hp", "tvi", "wy", "adm", "aaa", "oven-", "press-", "xterm-", "tek", "ibm", "h19-", "dg",
    "att", "ampex", "concept", "z", "sun-", "linux-", "ansi-", "qvt", "dm", "mime", "regent",
];

pub const NAME_ENDS: [&str; 9] = ["", "", "-w", "-nam", "-am", "-s", "-rv", "a", "+pp"];

pub const MAKERS: [&str; 8] = [
    "dec", "hewlett packard", "wyse", "lear siegler", "televideo systems", "data general",
    "human designed systems", "ibm",
];

pub const COMMENT_WORDS: [&str; 38] = [
    "the", "terminal", "of", "manufacturer", "has", "a", "24", "line", "display", "and",
    "keyboard", "function", "keys", "are", "sent", "as", "escape", "sequences", "note", "that",
    "this", "entry", "was", "contributed", "by", "site", "users", "from", "model", "series",
    "with", "graphics", "option", "it", "does", "not", "wrap", "<console@plant>",
];
