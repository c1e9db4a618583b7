"""Makes OpenStack Swift ask LRC(12,2,2) which fragments it needs.

Swift takes any `ec_num_data_fragments` of an object's fragments to be enough. Of LRC(12,2,2), 252
of the 1,820 sets of twelve do not determine the data. In the policies with `ec_type = libphazr`,
- the proxy asks for further fragments until those that it has determine the data: `proxy`;
- the reconstructor reads only the fragments that a lost one is made of: `reconstructor`.
Other policies are served as without these modules. Fragments of an object in LRC are not decoded
by another code, nor another code's by LRC."""

import swift
from pyeclib.ec_iface import ECDriverError

EC_TYPE = "libphazr"
TESTED = ("2.30", "2.35", "2.38")  # the releases of Swift with which cluster_test.py has passed


def refuse_other_releases():
    """The modules replace private methods of Swift, which another release may call otherwise."""
    if ".".join(swift.__version__.split(".")[:2]) not in TESTED:
        tested = f"{', '.join(TESTED[:-1])} and {TESTED[-1]}"
        raise RuntimeError(
            f"lrcstore_swift is tested with Swift {tested}, and this is {swift.__version__}: "
            "install one of these, or try yours by integrations/swift/cluster_test.py --untested"
        )


def is_lrc(policy):
    """Whether the policy's objects are kept in LRC. A replicated policy has no `ec_type`."""
    return getattr(policy, "ec_type", None) == EC_TYPE


def wrong_scheme(policy, scheme):
    """Why the policy's code must not decode an object in `scheme`; None if it may."""
    mine = policy.ec_scheme_description
    if scheme in (None, mine) or EC_TYPE not in (scheme.split()[0], policy.ec_type):
        return None
    return (
        f"the object is in {scheme}, and the policy {policy.name} in {mine}: "
        "set the policy in swift.conf to what the object is in"
    )


def fragments_needed(policy, wanted, unavailable):
    """The numbers of the fragments to read for those `wanted`, which are lost; None if the others,
    without the `unavailable` ones, do not determine them."""
    try:
        return policy.pyeclib_driver.fragments_needed(sorted(wanted), sorted(unavailable))
    except ECDriverError:
        return None


def determines(policy, fragments, wanted):
    """Whether the fragments with the numbers `fragments` determine those `wanted`."""
    missing = set(wanted).difference(fragments)
    unavailable = set(range(policy.ec_n_unique_fragments)).difference(fragments, missing)
    return not missing or fragments_needed(policy, missing, unavailable) is not None


def rank(policy, fragments):
    """How many of the fragments determine all of them: none that the ones before it determine."""
    kept = []
    for each in fragments:
        if not determines(policy, kept, [each]):
            kept.append(each)
    return len(kept)
