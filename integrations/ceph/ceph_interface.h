/* The binary interface by which Ceph 16.2, 18.2 and 20.2 load an erasure code plugin and call it.
 *
 * No package of Debian has these declarations. They are written here from what the installed
 * plugins export: the virtual functions stand in the order of the plugins' tables, which
 * plugin_test.cc compares, and their types are in their names. ceph::buffer::list, which has a
 * chunk's bytes, is declared by <rados/buffer.h> of libradospp-dev. CEPH_RELEASE is the version's
 * first number: 16 and 18 have one interface, and 20 has another. */
#ifndef CEPH_INTERFACE_H
#define CEPH_INTERFACE_H

#include <map>
#include <memory>
#include <ostream>
#include <rados/buffer.h>
#include <set>
#include <string>
#include <utility>
#include <vector>

#ifndef CEPH_RELEASE
#error "CEPH_RELEASE has to be the first number of Ceph's version: see build.sh"
#elif CEPH_RELEASE >= 20
#include "ceph_shards.h"
#endif

/* Ceph's map of the cluster. Of its functions these are called: each adds a rule, and returns the
 * rule's number, or an error below 0. The first rule chooses a failure domain for each chunk, and
 * the second one the given number of OSDs in each domain. */
class CrushWrapper {
public:
#if CEPH_RELEASE >= 20
    /* `domains` is the number of failure domains to choose, or -1 for one for each chunk. */
    int add_simple_rule(std::string name, std::string root, std::string failure_domain, int domains,
                        std::string device_class, std::string mode, int pool_type,
                        std::ostream *err);
    int add_indep_multi_osd_per_failure_domain_rule(std::string name, std::string root,
                                                    std::string failure_domain, int domains,
                                                    int osds_each, std::string device_class,
                                                    std::ostream *err);
#else
    int add_simple_rule(std::string name, std::string root, std::string failure_domain,
                        std::string device_class, std::string mode, int pool_type,
                        std::ostream *err);
#endif
};

namespace ceph {

using ErasureCodeProfile = std::map<std::string, std::string>;
using Chunks = std::map<int, buffer::list>;
/* Of each chunk to read, the parts as pairs of first part and number. This code has one part, 0. */
using ChunkParts = std::map<int, std::vector<std::pair<int, int>>>;

#if CEPH_RELEASE >= 20
using Place = shard_id_t;
using ShardSet = shard_id_set;
using ShardParts = shard_id_map<std::vector<std::pair<int, int>>>;
using ShardCosts = shard_id_map<int>;
using ShardChunks = shard_id_map<buffer::list>;
using ShardBuffers = shard_id_map<buffer::ptr>;

/* What a pool with allow_ec_optimizations may ask of a plugin: bits of get_supported_optimizations,
 * with Ceph's names. */
enum : uint64_t {
    PARTIAL_READ = 1 << 0,
    PARTIAL_WRITE = 1 << 1,
    ZERO_INPUT_ZERO_OUTPUT = 1 << 2,
    ZERO_PADDING = 1 << 3,
    PARITY_DELTA = 1 << 4,
    OPTIMIZED_SUPPORTED = 1 << 6
};
#else
using Place = int;
#endif

class ErasureCodeInterface {
public:
    virtual ~ErasureCodeInterface() {}
    virtual int init(ErasureCodeProfile &profile, std::ostream *ss) = 0;
    virtual const ErasureCodeProfile &get_profile() const = 0;
    virtual int create_rule(const std::string &name, CrushWrapper &crush,
                            std::ostream *ss) const = 0;
    virtual unsigned get_chunk_count() const = 0;
    virtual unsigned get_data_chunk_count() const = 0;
    virtual unsigned get_coding_chunk_count() const = 0;
    virtual int get_sub_chunk_count() = 0;
    virtual unsigned get_chunk_size(unsigned object_size) const = 0;
#if CEPH_RELEASE >= 20
    /* `read` gets the places to read, and `parts` what to read of each. */
    virtual int minimum_to_decode(const ShardSet &want, const ShardSet &available, ShardSet &read,
                                  ShardParts *parts) = 0;
#endif
    virtual int minimum_to_decode(const std::set<int> &want, const std::set<int> &available,
                                  ChunkParts *minimum) = 0;
#if CEPH_RELEASE >= 20
    virtual int minimum_to_decode_with_cost(const ShardSet &want, const ShardCosts &available,
                                            ShardSet *minimum) = 0;
#endif
    virtual int minimum_to_decode_with_cost(const std::set<int> &want,
                                            const std::map<int, int> &available,
                                            std::set<int> *minimum) = 0;
#if CEPH_RELEASE >= 20
    /* A part of each chunk can be encoded if its length and offset are multiples of this. */
    virtual size_t get_minimum_granularity() = 0;
    virtual int encode(const ShardSet &want, const buffer::list &in, ShardChunks *encoded) = 0;
#endif
    virtual int encode(const std::set<int> &want, const buffer::list &in, Chunks *encoded) = 0;
    virtual int encode_chunks(const std::set<int> &want, Chunks *encoded) = 0;
#if CEPH_RELEASE >= 20
    /* `data` that is not given is zeros, and only the given parities are wanted. */
    virtual int encode_chunks(const ShardBuffers &data, ShardBuffers &parities) = 0;
    virtual void encode_delta(const buffer::ptr &before, const buffer::ptr &after,
                              buffer::ptr *delta) = 0;
    /* Changes the parities by what the data changed. */
    virtual void apply_delta(const ShardBuffers &deltas, ShardBuffers &parities) = 0;
    virtual int decode(const ShardSet &want, const ShardChunks &chunks, ShardChunks *decoded,
                       int chunk_size) = 0;
#endif
    virtual int decode(const std::set<int> &want, const Chunks &chunks, Chunks *decoded,
                       int chunk_size) = 0;
#if CEPH_RELEASE >= 20
    /* A chunk that is not among `chunks` is lost. */
    virtual int decode_chunks(const ShardSet &want, ShardBuffers &chunks,
                              ShardBuffers &decoded) = 0;
#endif
    virtual int decode_chunks(const std::set<int> &want, const Chunks &chunks, Chunks *decoded) = 0;
    virtual const std::vector<Place> &get_chunk_mapping() const = 0;
#if CEPH_RELEASE >= 20
    virtual int decode_concat(const std::set<int> &want, const Chunks &chunks,
                              buffer::list *decoded) = 0;
#endif
    virtual int decode_concat(const Chunks &chunks, buffer::list *decoded) = 0;
#if CEPH_RELEASE >= 20
    virtual uint64_t get_supported_optimizations() const = 0;
    virtual std::string get_optimizations_flags_string() const = 0;
#endif
};

using ErasureCodeInterfaceRef = std::shared_ptr<ErasureCodeInterface>;

class ErasureCodePlugin {
public:
    void *library = nullptr; /* the program's that loaded the plugin */
    virtual ~ErasureCodePlugin() {}
    virtual int factory(const std::string &directory, ErasureCodeProfile &profile,
                        ErasureCodeInterfaceRef *code, std::ostream *ss) = 0;
};

/* The list of loaded plugins that each of Ceph's programs has, and exports to its plugins. */
class ErasureCodePluginRegistry {
public:
    static ErasureCodePluginRegistry singleton;
    int add(const std::string &name, ErasureCodePlugin *plugin);
    int factory(const std::string &plugin, const std::string &directory,
                ErasureCodeProfile &profile, ErasureCodeInterfaceRef *code, std::ostream *ss);
};

} // namespace ceph

extern "C" {
/* The version of Ceph that a plugin is built for. Another version does not load it. */
const char *__erasure_code_version();
/* Adds the plugin to the list. */
int __erasure_code_init(char *plugin_name, char *directory);
}

#endif
