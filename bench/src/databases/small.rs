//! A small database: a terminal with a link, and the one it links to.

pub const BYTES: &[u8] = b"# two ovens and what they have in common\n\
ov|oven-1|console of the first oven:\\\n\
\t:am:xn:km:\\\n\
\t:co#80:li#24:it#8:\\\n\
\t:bl=^G:cl=50\\E[;H\\E[2J:cr=^M:do=^J:\\\n\
\t:so=2\\E[7m:se=2\\E[m:us=2\\E[4m:ue=2\\E[m:\\\n\
\t:tc=ansi-oven:\n\
#\n\
# the part that is the same everywhere\n\
an|ansi-oven|common part of all ovens:\\\n\
\t:bs:pt:vt#3:\\\n\
\t:cm=5\\E[%i%d;%dH:ho=\\E[H:le=^H:nd=2\\E[C:up=2\\E[A:\\\n\
\t:ce=3\\E[K:cd=50\\E[J:ks=\\E[?1h\\E=:ke=\\E[?1l\\E>:\\\n\
\t:ku=\\EOA:kd=\\EOB:kr=\\EOC:kl=\\EOD:kb=^H:\n";

pub const NAME: &[u8] = b"oven-1";
/// Capabilities of the description that is linked to, so that the link is followed.
pub const FLAG: &[u8] = b"pt";
pub const NUMBER: &[u8] = b"vt";
pub const STRING: &[u8] = b"cm";
