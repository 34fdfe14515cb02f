/* What lup_init says of this header and the archive: status 0 if they are of one version, 3 if it tells that they are not. */
#include "luppaneth.h"

int main(void)
{
    static struct luppaneth l;
    int answer = lup_init(&l);
    return answer == 0 ? 0 : answer == LUP_MISMATCH ? 3 : 1;
}
