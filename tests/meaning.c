/* rasppuce_meaning, which the header has inline, under a name that the tests can link. */
#include "rasppuce.h"

const char *words_of_answer(uint32_t answer);

const char *words_of_answer(uint32_t answer)
{
    return rasppuce_meaning(answer);
}
