/* The library's version, compiled into it by packaging/build. No crate has it: a
 * version is no part of what is proved. tests/install holds it to the header, the
 * packages and captions.pc. */
const char *captions_version(void);

const char *captions_version(void)
{
    return "0.7.1";
}
