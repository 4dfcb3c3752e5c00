/* Prints the version of the library, and what each number and each outcome of
   the gateway's driver means, as the headers have them.  tests/rust/reasons.rs
   prints the same by the crate for Rust. */
#include "pcp_driver.h"

#include <stdio.h>

int main(void)
{
    char numbers[32];

    snprintf(numbers, sizeof numbers, "%d.%d.%d", PCP_VERSION_MAJOR,
             PCP_VERSION_MINOR, PCP_VERSION_PATCH);
    if (strcmp(numbers, pcp_version()) != 0)
        return 1;
    printf("version %s\n", pcp_version());
    for (int number = 0; number < 256; number++)
        printf("%d %s\n", number, pcp_reason(number));
    for (int outcome = PCP_OUTCOME_SUCCESS; outcome <= PCP_OUTCOME_PACKAGE;
         outcome++)
        printf("outcome %d %s\n", outcome, pcp_outcome_reason(outcome));
    return strcmp(pcp_outcome_reason(PCP_OUTCOME_PACKAGE + 1),
                  pcp_outcome_reason(-1)) != 0 ||
           strcmp(pcp_reason(-1), pcp_reason(255)) != 0 ||
           strcmp(pcp_reason(256), pcp_reason(255)) != 0;
}
