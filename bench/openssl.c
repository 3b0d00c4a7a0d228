/*
 * What the benchmarks ask of OpenSSL: the two extension values read and written, and the path of a bundle checked.
 *
 * OpenSSL does all the work that it has functions for. By hand are only the splitting of a bundle, which is no format of OpenSSL's,
 * and inheritance, for which it offers a function over certificates only.
 * Everything that is made here is freed here, but for the structures of `openssl_structure_read`.
 */
#include <stddef.h>
#include <stdint.h>

#include <openssl/crypto.h>
#include <openssl/x509v3.h>

enum kind { IP = 1, AS = 2 };

/* IPAddrBlocks has no d2i and i2d of its own in OpenSSL 3.0; its item, which they would use, is had from the extension. */
static const ASN1_ITEM *item_of(enum kind kind)
{
    static const ASN1_ITEM *ip;

    if (kind == AS)
        return ASN1_ITEM_rptr(ASIdentifiers);
    if (ip == NULL)
        ip = ASN1_ITEM_ptr(X509V3_EXT_get_nid(NID_sbgp_ipAddrBlock)->it);
    return ip;
}

/* The structure of a value, or NULL. All octets of the value must have been used. */
static void *structure_of(enum kind kind, const uint8_t *value, size_t length)
{
    const uint8_t *end = value;
    void *structure = (void *)ASN1_item_d2i(NULL, &end, (long)length, item_of(kind));

    if (structure != NULL && end != value + length) {
        ASN1_item_free(structure, item_of(kind));
        return NULL;
    }
    return structure;
}

static int is_canonical(enum kind kind, void *structure)
{
    return kind == IP ? X509v3_addr_is_canonical(structure) : X509v3_asid_is_canonical(structure);
}

/* Reading alone: 1 if the value is read and is in canonical form. */
int openssl_read(int kind, const uint8_t *value, size_t length)
{
    void *structure = structure_of(kind, value, length);
    int accepted = structure != NULL && is_canonical(kind, structure);

    ASN1_item_free(structure, item_of(kind));
    return accepted;
}

/* The structure that `openssl_write` writes; NULL if the value cannot be read. */
void *openssl_structure_read(int kind, const uint8_t *value, size_t length)
{
    return structure_of(kind, value, length);
}

void openssl_structure_free(int kind, void *structure)
{
    ASN1_item_free(structure, item_of(kind));
}

/* Writing alone: the octets written to `out`, which has room for them; 0 or less if that failed. */
int openssl_write(int kind, const void *structure, uint8_t *out)
{
    return ASN1_item_i2d(structure, &out, item_of(kind));
}

/* A certificate of the path. An extension that is absent is NULL. */
struct certificate {
    IPAddrBlocks *ip;
    ASIdentifiers *as;
};

static void release(struct certificate *certificate)
{
    ASN1_item_free((ASN1_VALUE *)certificate->ip, item_of(IP));
    ASIdentifiers_free(certificate->as);
}

static IPAddressFamily *family_of(const IPAddrBlocks *blocks, const ASN1_OCTET_STRING *name)
{
    for (int i = 0; i < sk_IPAddressFamily_num(blocks); i++) {
        IPAddressFamily *family = sk_IPAddressFamily_value(blocks, i);

        if (ASN1_OCTET_STRING_cmp(family->addressFamily, name) == 0)
            return family;
    }
    return NULL;
}

/*
 * Inheritance: the issuer's choice takes the place of each inherit, as a pointer, without a copy. Issuer and certificate then share it until
 * `part` gives it to the certificate alone. 0 if the issuer has no such family or kind of number.
 */
static int inherit_ip(IPAddrBlocks *own, const IPAddrBlocks *issuer)
{
    for (int i = 0; i < sk_IPAddressFamily_num(own); i++) {
        IPAddressFamily *family = sk_IPAddressFamily_value(own, i);
        IPAddressFamily *held;

        if (family->ipAddressChoice->type != IPAddressChoice_inherit)
            continue;
        held = family_of(issuer, family->addressFamily);
        if (held == NULL)
            return 0;
        IPAddressChoice_free(family->ipAddressChoice);
        family->ipAddressChoice = held->ipAddressChoice;
    }
    return 1;
}

static int inherit_identifiers(ASIdentifierChoice **own, ASIdentifierChoice *issuer)
{
    if (*own == NULL || (*own)->type != ASIdentifierChoice_inherit)
        return 1;
    if (issuer == NULL)
        return 0;
    ASIdentifierChoice_free(*own);
    *own = issuer;
    return 1;
}

static int inherit(struct certificate *own, const struct certificate *issuer)
{
    const ASIdentifiers *as = issuer->as;

    return inherit_ip(own->ip, issuer->ip)
        && (own->as == NULL
            || (inherit_identifiers(&own->as->asnum, as == NULL ? NULL : as->asnum)
                && inherit_identifiers(&own->as->rdi, as == NULL ? NULL : as->rdi)));
}

/* Takes from the issuer what the certificate has inherited, so that each is freed once. */
static void part(struct certificate *issuer, const struct certificate *own)
{
    for (int i = 0; i < sk_IPAddressFamily_num(own->ip); i++) {
        IPAddressFamily *family = sk_IPAddressFamily_value(own->ip, i);
        IPAddressFamily *held = family_of(issuer->ip, family->addressFamily);

        if (held != NULL && held->ipAddressChoice == family->ipAddressChoice)
            held->ipAddressChoice = NULL;
    }
    if (own->as != NULL && issuer->as != NULL) {
        if (own->as->asnum == issuer->as->asnum)
            issuer->as->asnum = NULL;
        if (own->as->rdi == issuer->as->rdi)
            issuer->as->rdi = NULL;
    }
}

/* Reads the next value of the bundle: a 16-bit length and that many octets. NULL if it is absent, and if it cannot be read, which ends `accepted`. */
static void *take(enum kind kind, const uint8_t **rest, const uint8_t *end, int *accepted)
{
    const uint8_t *value = *rest + 2;
    void *structure = NULL;
    size_t length;

    *accepted = *accepted && end - *rest >= 2;
    if (!*accepted)
        return NULL;
    length = (size_t)(*rest)[0] << 8 | (*rest)[1];
    *accepted = (size_t)(end - value) >= length;
    if (!*accepted || length == 0) {
        *rest = value;
        return NULL;
    }
    *rest = value + length;
    structure = structure_of(kind, value, length);
    *accepted = structure != NULL;
    return structure;
}

/* The path of a bundle: 1 if every certificate is canonical, finds what it inherits, and holds nothing that its issuer does not. */
int openssl_path(const uint8_t *bundle, size_t length)
{
    const uint8_t *rest = bundle + 6;
    const uint8_t *end = bundle + length;
    struct certificate issuer = { NULL, NULL };
    int accepted = 1;

    for (int i = 0; accepted && i < bundle[5]; i++) {
        struct certificate own;

        own.ip = take(IP, &rest, end, &accepted);
        own.as = take(AS, &rest, end, &accepted);
        accepted = accepted && X509v3_addr_is_canonical(own.ip) && X509v3_asid_is_canonical(own.as);
        if (i == 0)
            accepted = accepted && !X509v3_addr_inherits(own.ip) && !X509v3_asid_inherits(own.as);
        else
            accepted = accepted && inherit(&own, &issuer) && X509v3_addr_subset(own.ip, issuer.ip)
                && X509v3_asid_subset(own.as, issuer.as);
        part(&issuer, &own);
        release(&issuer);
        issuer = own;
    }
    release(&issuer);
    return accepted && rest == end;
}

const char *openssl_version(void)
{
    return OpenSSL_version(OPENSSL_VERSION);
}
