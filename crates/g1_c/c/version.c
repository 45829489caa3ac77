/* The version of the archive that a program runs with, where that of the header is the one that it
 * was compiled with. scripts/built passes it on from include/g1.h. */
__attribute__((visibility("default"))) const char *g1_version(void);

const char *g1_version(void) {
    return VERSION;
}
