// The same answers in plain C++17, with nothing proved and nothing checked: what the program's times are held against.
//
//     plain KIND NUMBERS..
//
// prints the answer as the script of the same name in `run` prints it, and on a line of its own the milliseconds that the
// work took, without the start of the program and the printing.
#include <algorithm>
#include <chrono>
#include <cstdint>
#include <cstdio>
#include <cstdlib>
#include <map>
#include <numeric>
#include <string>
#include <vector>

using u64 = uint64_t;
using i64 = int64_t;
using Nats = std::vector<u64>;
static const u64 NONE = ~0ull;

// The Apery list modulo the least generator, one generator after the other: round each circle of classes once, from its
// least entry on. `gens` are the minimal generators.
struct Table {
    u64 m = 0;
    Nats least, gens;
    explicit Table(Nats given) {
        std::sort(given.begin(), given.end());
        given.erase(std::unique(given.begin(), given.end()), given.end());
        m = given[0];
        least.assign(m, NONE);
        least[0] = 0;
        gens.push_back(m);
        for (size_t k = 1; k < given.size(); k++) enter(given[k]);
    }
    void enter(u64 n) {
        u64 step = n % m;
        if (least[step] <= n) return;
        gens.push_back(n);
        u64 circles = std::gcd(step, m), length = m / circles;
        for (u64 r = 0; r < circles; r++) {
            u64 best = r, at = r;
            for (u64 i = 0; i < length; i++) {
                if (least[at] < least[best]) best = at;
                at += step;
                if (at >= m) at -= m;
            }
            if (least[best] == NONE) continue;
            u64 value = least[at = best];
            for (u64 i = 1; i < length; i++) {
                at += step;
                if (at >= m) at -= m;
                value = least[at] = std::min(least[at], value + n);
            }
        }
    }
    bool has(i64 x) const { return x >= 0 && (u64)x >= least[(u64)x % m]; }
    i64 frobenius() const { return (i64)*std::max_element(least.begin(), least.end()) - (i64)m; }
    u64 type() const {
        u64 count = 0;
        for (u64 i = 0; i < m; i++) {
            bool maximal = true;
            for (size_t j = 1; j < gens.size() && maximal; j++) {
                u64 sum = least[i] + gens[j];
                maximal = least[sum % m] != sum;
            }
            count += maximal;
        }
        return count;
    }
};

// The number of factorizations of n, which are all written out: no branch is a dead end, since the rest is looked up in
// the semigroup of the generators that are left.
struct Factorizations {
    Nats g, common;
    std::vector<Table> rest;
    Nats vectors;
    Factorizations(u64 n, Nats given) : g(std::move(given)) {
        for (size_t k = 0; k < g.size(); k++) {
            Nats tail(g.begin() + k, g.end());
            u64 d = 0;
            for (u64 x : tail) d = std::gcd(d, x);
            for (u64 &x : tail) x /= d;
            common.push_back(d);
            rest.emplace_back(tail);
        }
        Nats z(g.size(), 0);
        if (reaches(0, n)) walk(0, n, z);
    }
    bool reaches(size_t k, u64 n) const { return k == g.size() ? n == 0 : n % common[k] == 0 && rest[k].has((i64)(n / common[k])); }
    void walk(size_t k, u64 n, Nats &z) {
        if (k + 1 == g.size()) {
            z[k] = n / g[k];
            vectors.insert(vectors.end(), z.begin(), z.end());
            return;
        }
        for (u64 q = n / g[k] + 1; q-- > 0;)
            if (reaches(k + 1, n - q * g[k])) {
                z[k] = q;
                walk(k + 1, n - q * g[k], z);
            }
    }
    size_t count() const { return vectors.size() / g.size(); }
};

// How many lengths n has: l is one exactly where n - l n1 is a sum of at most l differences n_i - n1.
static size_t lengths(u64 n, const Nats &g) {
    u64 first = (n + g.back() - 1) / g.back(), top = n >= first * g[0] ? n - first * g[0] : 0;
    std::vector<uint32_t> coins(top + 1, UINT32_MAX - 1);
    coins[0] = 0;
    for (size_t j = 1; j < g.size(); j++)
        for (u64 d = g[j] - g[0], x = d; x <= top; x++) coins[x] = std::min(coins[x], coins[x - d] + 1);
    size_t count = 0;
    for (u64 l = first; l * g[0] <= n; l++) count += coins[n - l * g[0]] <= l;
    return count;
}

// Betti elements with the places of their classes.
static std::vector<std::pair<u64, Nats>> betti(const Table &t) {
    const Nats &g = t.gens;
    Nats sums;
    for (u64 w : t.least)
        for (size_t j = 1; j < g.size(); j++) sums.push_back(w + g[j]);
    std::sort(sums.begin(), sums.end());
    sums.erase(std::unique(sums.begin(), sums.end()), sums.end());
    std::vector<std::pair<u64, Nats>> found;
    for (u64 n : sums) {
        u64 left = 0;
        for (size_t i = 0; i < g.size(); i++)
            if (t.has((i64)n - (i64)g[i])) left |= 1ull << i;
        Nats classes;
        while (left) {
            u64 places = left & -left, todo = places;
            left ^= places;
            while (todo) {
                size_t i = (size_t)__builtin_ctzll(todo);
                todo &= todo - 1;
                for (u64 others = left; others; others &= others - 1) {
                    size_t j = (size_t)__builtin_ctzll(others);
                    if (!t.has((i64)n - (i64)(g[i] + g[j]))) continue;
                    places |= 1ull << j;
                    todo |= 1ull << j;
                    left ^= 1ull << j;
                }
            }
            classes.push_back(places);
        }
        if (classes.size() > 1) found.push_back({n, classes});
    }
    return found;
}

static size_t relations(const Table &t) {
    size_t count = 0;
    for (auto &element : betti(t)) count += element.second.size() - 1;
    return count;
}

// The catenary degree: the greatest, over Betti elements and classes, of the least length in the class.
static u64 catenary(const Table &t) {
    auto elements = betti(t);
    u64 top = elements.empty() ? 0 : elements.back().first, degree = 0;
    std::vector<uint32_t> least(top + 1, UINT32_MAX - 1);
    least[0] = 0;
    for (u64 n : t.gens)
        for (u64 x = n; x <= top; x++) least[x] = std::min(least[x], least[x - n] + 1);
    for (auto &[n, classes] : elements)
        for (u64 places : classes) {
            u64 best = NONE;
            for (u64 p = places; p; p &= p - 1) best = std::min<u64>(best, least[n - t.gens[(size_t)__builtin_ctzll(p)]] + 1);
            degree = std::max(degree, best);
        }
    return degree;
}

// The catenary degree of an element: the longest step of a least spanning tree of its factorizations.
static u64 catenary_of(u64 n, const Nats &g) {
    Factorizations all(n, g);
    size_t count = all.count(), e = g.size(), at = 0;
    std::vector<u64> nearest(count, NONE);
    std::vector<char> done(count, 0);
    u64 degree = 0;
    for (size_t step = 1; step < count; step++) {
        done[at] = 1;
        size_t next = 0;
        u64 best = NONE;
        for (size_t i = 0; i < count; i++) {
            if (done[i]) continue;
            u64 here = 0, there = 0;
            for (size_t j = 0; j < e; j++) {
                u64 a = all.vectors[at * e + j], b = all.vectors[i * e + j], both = std::min(a, b);
                here += a - both;
                there += b - both;
            }
            nearest[i] = std::min(nearest[i], std::max(here, there));
            if (nearest[i] < best) best = nearest[i], next = i;
        }
        degree = std::max(degree, best);
        at = next;
    }
    return degree;
}

// Omega primality: for each set of places that some element v leaves open, the table of greatest lengths over these
// places, read at n + v. Sets with a common beginning share its tables.
static u64 omega(const Table &t) {
    i64 end = t.frobenius() + (i64)t.gens.back();
    std::map<std::vector<size_t>, Nats> open;
    for (i64 x = 0; x <= end; x++) {
        if (!t.has(x)) continue;
        std::vector<size_t> places;
        for (size_t j = 0; j < t.gens.size(); j++)
            if (!t.has(x - (i64)t.gens[j])) places.push_back(j);
        if (!places.empty()) open[places].push_back((u64)x);
    }
    u64 top = (u64)end + t.gens.back(), greatest = 0;
    std::vector<std::vector<int32_t>> tables(1, std::vector<int32_t>(top + 1, INT32_MIN / 2));
    tables[0][0] = 0;
    std::vector<size_t> path;
    for (auto &[places, values] : open) {
        size_t shared = 0;
        while (shared < path.size() && shared < places.size() && path[shared] == places[shared]) shared++;
        path.resize(shared);
        tables.resize(shared + 1);
        for (; shared < places.size(); shared++) {
            tables.push_back(tables[shared]);
            u64 n = t.gens[places[shared]];
            for (u64 x = n; x <= top; x++) tables.back()[x] = std::max(tables.back()[x], tables.back()[x - n] + 1);
            path.push_back(places[shared]);
        }
        for (u64 n : t.gens)
            for (u64 x : values)
                if (tables.back()[n + x] > (i64)greatest) greatest = (u64)tables.back()[n + x];
    }
    return greatest;
}

int main(int count, char **words) {
    std::string kind = count > 1 ? words[1] : "";
    Nats numbers;
    for (int i = 2; i < count; i++) numbers.push_back(strtoull(words[i], nullptr, 10));
    if (numbers.empty()) return 2;
    Nats behind(numbers.begin() + 1, numbers.end());
    auto begin = std::chrono::steady_clock::now();
    long long answer = 0;
    if (kind == "frobenius") answer = Table(numbers).frobenius();
    else if (kind == "type") answer = (long long)Table(numbers).type();
    else if (kind == "factorizations") answer = (long long)Factorizations(numbers[0], behind).count();
    else if (kind == "lengths") answer = (long long)lengths(numbers[0], behind);
    else if (kind == "relations") answer = (long long)relations(Table(numbers));
    else if (kind == "catenary") answer = (long long)catenary(Table(numbers));
    else if (kind == "catenary_of") answer = (long long)catenary_of(numbers[0], behind);
    else if (kind == "omega") answer = (long long)omega(Table(numbers));
    else return 2;
    double took = std::chrono::duration<double, std::milli>(std::chrono::steady_clock::now() - begin).count();
    printf("%lld\n%.3f\n", answer, took);
}
