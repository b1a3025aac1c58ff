#include "plan.h"

#include <string.h>

bool is_direct(const struct plan *plan)
{
    return strcmp(plan->via, "direct") == 0;
}

enum code code_of(const struct plan *plan)
{
    return strcmp(plan->kind, "accounting") == 0 ? ACCOUNTING_REQUEST : ACCESS_REQUEST;
}

struct sockaddr_in target_address(const struct plan *plan, unsigned realm)
{
    unsigned base = (unsigned)plan->base;

    if (code_of(plan) == ACCOUNTING_REQUEST)
        return is_direct(plan) ? home_acct(base, realm) : broker_acct(base);
    return is_direct(plan) ? home_auth(base, realm) : broker_auth(base);
}

void target_secret(const struct plan *plan, unsigned realm, unsigned peer,
                   struct secret *secret)
{
    if (is_direct(plan))
        home_secret(secret, realm);
    else
        peer_secret(secret, peer);
}
