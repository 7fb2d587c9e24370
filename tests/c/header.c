/* What the header says beside the calls: a sentence for each refusal and for nothing else, and the version of the library that it is linked with. */
#include <stdio.h>
#include <string.h>

#include "store.h"

/* 23 to 25 are not in use. */
static int is_refusal(uint32_t number)
{
    return number <= STORE_NOT_MAPPED || number >= STORE_NOT_ONE_EACH;
}

int main(void)
{
    int wrong = 0;
    const char *none = store_reason(STORE_LISTED_TWICE + 1);
    for (uint32_t i = 0; i <= STORE_LISTED_TWICE; i++)
        for (uint32_t k = i + 1; k <= STORE_LISTED_TWICE + 1; k++)
            if (is_refusal(i) && (strlen(store_reason(i)) < 10 || strcmp(store_reason(i), store_reason(k)) == 0))
                wrong = printf("refusals %u and %u have no sentences of their own\n", (unsigned)i, (unsigned)k);
    static const uint32_t others[] = {23, 24, 25, 29, 255, 256, 65536, UINT32_MAX};
    for (size_t i = 0; i < sizeof others / sizeof others[0]; i++)
        if (strcmp(store_reason(others[i]), none) != 0)
            wrong = printf("%u is no refusal and has a sentence\n", (unsigned)others[i]);
    if (store_version() != STORE_VERSION)
        wrong = printf("the header is version %u, the library %u\n", (unsigned)STORE_VERSION, (unsigned)store_version());
    return wrong != 0;
}
