// Two charts, the triangle under a point and where in it the point is, and every pair of triangles that share ground.
// c++ -std=c++17 overlay.cpp $(pkg-config --cflags --libs jirdtungsten) -o overlay
#include <jirdtungsten_charts.h>
#include <iostream>
#include <memory>
#include <vector>

static std::unique_ptr<jird_chart> loaded(const std::vector<uint16_t> &numbers) {
    auto chart = std::make_unique<jird_chart>();
    jird_changed done = jird_chart_load(chart.get(), numbers.data(), numbers.size());
    if (done.number != JIRD_DONE) std::cerr << "load: " << jird_words(done.number) << "\n";
    return chart;
}

int main() {
    auto bed = loaded({0, 0, 65535, 0, 0, 65535, 65535, 65535, 0, 65535, 65535, 0});
    auto design = loaded({10000, 10000, 60000, 10000, 10000, 60000});
    jird_located found = jird_chart_locate(bed.get(), 32768, 32767);
    std::cout << "the bed at (32768, 32767): triangle " << found.triangle << ", " << jird_position_words(found.position) << "\n";
    std::vector<uint16_t> pairs(JIRD_PAIRS_LENGTH);
    jird_overlaid o = jird_chart_overlay(bed.get(), design.get(), pairs.data());
    if (o.number != JIRD_DONE) std::cerr << "overlay: " << jird_words(o.number) << "\n";
    std::cout << o.pairs << " pairs, " << o.meetings << " meetings\n";
    for (size_t k = 0; k < o.pairs; k++) std::cout << "bed " << pairs[2 * k] << ", design " << pairs[2 * k + 1] << "\n";
    return o.number == JIRD_DONE ? 0 : 1;
}
