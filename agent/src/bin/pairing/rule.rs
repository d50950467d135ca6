//! The rule that makes a pairing safe, as the commands' help says it.

/// What the help of a command says that takes or makes a key.
macro_rules! rule_help {
    () => {
        "
The rule that makes a pairing safe:
  Draw the key after both labels are fixed.
  Keep it secret until then.
  Use it once.
  Every retry is another chance for a wrong label.
All of this goes for a seed as well. The counts over all keys help only then:
whoever knows the key before that can find a second label with the same digest.
"
    };
}
pub(crate) use rule_help;
