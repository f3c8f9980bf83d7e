/* A program that uses the installed library: it prints the version, the GNU hash of its argument, and whether that
 * was refused. */
#include <fetulombo.h>

#include <stdio.h>

int main(int count, char **arguments) {
    const fetulombo_bytes name = fetulombo_text(count > 1 ? arguments[1] : "");
    const fetulombo_number hash = fetulombo_gnu_hash(name.data, name.length);
    printf("%s: %llu, %s\n", FETULOMBO_VERSION, (unsigned long long)hash.value, fetulombo_refusal_text(hash.refusal));
    return 0;
}
