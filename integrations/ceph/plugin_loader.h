/* Loads erasure code plugins as Ceph's programs do, for the programs that test and time them. Each
 * of these includes this file once. */
#ifndef PLUGIN_LOADER_H
#define PLUGIN_LOADER_H

#include "ceph_interface.h"

#include <cerrno>
#include <cstdio>
#include <cstring>
#include <dlfcn.h>
#include <rados/librados.h>
#include <sstream>

namespace ceph {

/* What Ceph's plugins log by. It is in libceph-common. */
namespace global {
extern void *g_ceph_context;
}

/* The plugins look these up in the program that loads them. */
ErasureCodePluginRegistry ErasureCodePluginRegistry::singleton;

static std::map<std::string, ErasureCodePlugin *> loaded;

int ErasureCodePluginRegistry::add(const std::string &name, ErasureCodePlugin *plugin) {
    return loaded.emplace(name, plugin).second ? 0 : -EEXIST;
}

static int load(const std::string &name, const std::string &directory, std::ostream *ss) {
    const std::string file = directory + "/libec_" + name + ".so";
    void *library = dlopen(file.c_str(), RTLD_NOW);
    if (!library) {
        *ss << dlerror();
        return -EIO;
    }
    const auto version =
        reinterpret_cast<const char *(*)()>(dlsym(library, "__erasure_code_version"));
    const auto start =
        reinterpret_cast<int (*)(char *, char *)>(dlsym(library, "__erasure_code_init"));
    if (!version || !start || strcmp(version(), CEPH_VERSION)) {
        *ss << file << ": not built for Ceph " CEPH_VERSION;
        return -EXDEV;
    }
    std::string name_copy = name, directory_copy = directory;
    return start(name_copy.data(), directory_copy.data());
}

int ErasureCodePluginRegistry::factory(const std::string &name, const std::string &directory,
                                       ErasureCodeProfile &profile, ErasureCodeInterfaceRef *code,
                                       std::ostream *ss) {
    if (!loaded.count(name))
        if (int r = load(name, directory, ss)) return r;
    const int r = loaded.at(name)->factory(directory, profile, code, ss);
    return r ? r : profile == (*code)->get_profile() ? 0 : -EINVAL;
}

} // namespace ceph

using ceph::Chunks;
using ceph::ErasureCodeInterface;
using ceph::ErasureCodeInterfaceRef;
using ceph::ErasureCodeProfile;
using Places = std::set<int>;
namespace buffer = ceph::buffer;

/* The folder that the plugins are in. */
static std::string plugins;

static bool begin(const char *folder) {
    rados_t cluster;
    if (rados_create(&cluster, nullptr)) return false;
    ceph::global::g_ceph_context = rados_cct(cluster);
    plugins = folder;
    return true;
}

/* A code, or null and why the plugin refused it. */
static ErasureCodeInterfaceRef make_code(const std::string &plugin, ErasureCodeProfile profile,
                                         std::string *error) {
    ErasureCodeInterfaceRef code;
    std::ostringstream ss;
    profile["plugin"] = plugin;
    if (ceph::ErasureCodePluginRegistry::singleton.factory(plugin, plugins, profile, &code, &ss))
        code.reset();
    *error = ss.str();
    return code;
}

static buffer::list random_bytes(unsigned len, unsigned seed) {
    buffer::ptr bytes(buffer::create_aligned(len ? len : 1, 4096));
    uint64_t state = seed * 0x9E3779B97F4A7C15u + 1;
    for (unsigned i = 0; i < len; i++) {
        state = state * 6364136223846793005u + 1442695040888963407u;
        bytes.c_str()[i] = char(state >> 56);
    }
    buffer::list list;
    list.append(bytes, 0, len);
    return list;
}

static unsigned count_of(unsigned set) { return unsigned(__builtin_popcount(set)); }

static Places places_of(unsigned set) {
    Places places;
    for (int place = 0; place < 32; place++)
        if (set >> place & 1) places.insert(place);
    return places;
}

/* All places of the code, as a set of bits. */
static unsigned all_of(ErasureCodeInterface &code) { return (1u << code.get_chunk_count()) - 1; }

/* The places of the data. A code without a mapping has them first. */
static unsigned data_of(ErasureCodeInterface &code) {
    const auto &mapping = code.get_chunk_mapping();
    unsigned data = 0;
    for (unsigned i = 0; i < code.get_data_chunk_count(); i++)
        data |= 1u << (mapping.size() > i ? unsigned(mapping[i]) : i);
    return data;
}

/* What minimum_to_decode returns, and the places that it names. */
static int to_read(ErasureCodeInterface &code, unsigned want, unsigned available, unsigned *read) {
    ceph::ChunkParts minimum;
    const int r = code.minimum_to_decode(places_of(want), places_of(available), &minimum);
    *read = 0;
    for (const auto &item : minimum) *read |= 1u << item.first;
    return r;
}

/* Four lost places of a group, which are unrecoverable, and another one that is recoverable beside
 * them. */
inline std::pair<unsigned, unsigned> losses_of(ErasureCodeInterface &code) {
    const unsigned all = all_of(code);
    unsigned group = 0xF, other = 1, read;
    while (count_of(group) != 4 || !to_read(code, all, all & ~group, &read)) group++;
    while (group >> other & 1 || to_read(code, 1u << other, all & ~group & ~(1u << other), &read))
        other++;
    return {group, other};
}

static Chunks chunks_at(const Chunks &whole, unsigned set) {
    Chunks chunks;
    for (int place : places_of(set)) chunks[place] = whole.at(place);
    return chunks;
}

#endif
