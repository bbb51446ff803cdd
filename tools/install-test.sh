#!/usr/bin/env bash
# Builds a program over the installed libraries for C, as their users do:
#   install-test.sh [LIBRARY [ENGINE]]
# LIBRARY and ENGINE are the prefixes of tools/build-library and tools/build-engine (out/zemirako and
# out/zemirako_engine, if not said); they may be one. The program is built as C11 and as C++17, by
# pkg-config, CMake and Meson, with all warnings as errors. By CMake it is built over the archive of
# ENGINE, and over its shared object where there is one. Each is run, and prints the same. The
# prefixes are copied elsewhere before. Needs cc, c++, pkg-config, cmake, meson and ninja.
set -euo pipefail

top=$(cd "$(dirname "$0")/.." && pwd)
room=$(mktemp -d)
trap 'rm -rf "$room"' EXIT
cp -a "${1:-$top/out/zemirako}" "$room/one"
cp -a "${2:-$top/out/zemirako_engine}" "$room/two"
export PKG_CONFIG_PATH=$room/one/lib/pkgconfig:$room/two/lib/pkgconfig
cd "$room"

cat >consumer.c <<'END_C'
#include <zemirako.h>
#include <zemirako_engine.h>
#include <stdio.h>
#include <stdlib.h>

int main(void) {
    const uint8_t codes[2] = {0xd5, 0x2a}, codec[4] = {'a', 'l', 'a', 'w'};
    const zemirako_audio_config config = {8000, 1, 0};
    const zemirako_chunk_head head = {1, 0, 0, 0};
    int16_t samples[2] = {0, 0};
    uint8_t bytes[4] = {0, 0, 0, 0};
    zemirako_codec *at = (zemirako_codec *)malloc(zemirako_codec_size());
    if (!at || zemirako_audio_decoder_open(at, 4) != ZEMIRAKO_DONE ||
        zemirako_alaw_decode(codes, 2, samples, 2) != ZEMIRAKO_DONE ||
        zemirako_audio_decoder_configure(at, &config, codec, 4, codec, 0).status != ZEMIRAKO_DONE ||
        zemirako_audio_decoder_decode(at, &head, codes, 2).status != ZEMIRAKO_DONE)
        return 1;
    for (uint64_t moment = 0; moment < 2; moment++) {
        zemirako_turn turn;
        if (zemirako_codec_work(at, moment) != ZEMIRAKO_DONE) return 1;
        while ((turn = zemirako_codec_turn(at)).status == ZEMIRAKO_DONE)
            if (turn.outputs && zemirako_audio_decoder_output(at, 0, bytes, 4).size != 4) return 1;
    }
    for (int i = 0; i < 2; i++)
        if ((int16_t)(bytes[2 * i] | bytes[2 * i + 1] << 8) != samples[i]) return 1;
    printf("%s %06x %s %d %d\n", ZEMIRAKO_VERSION, (unsigned)zemirako_engine_version(),
           zemirako_status_text(zemirako_codec_end(at)), samples[0], samples[1]);
    free(at);
    return 0;
}
END_C
cp consumer.c consumer.cpp
cat >CMakeLists.txt <<'END_CMAKE'
cmake_minimum_required(VERSION 3.18)
project(consumers C CXX)
find_package(zemirako 0.2 REQUIRED)
find_package(zemirako_engine 0.2 REQUIRED)
set(CMAKE_C_STANDARD 11)
set(CMAKE_CXX_STANDARD 17)
set(CMAKE_C_EXTENSIONS OFF)
set(CMAKE_CXX_EXTENSIONS OFF)
add_compile_options(-Wall -Wextra -Wpedantic -Werror)
set(engines zemirako_engine)
if(TARGET zemirako_engine::shared)
  list(APPEND engines shared)
endif()
foreach(engine ${engines})
  foreach(language c cpp)
    add_executable(by_cmake_${engine}_${language} consumer.${language})
    target_link_libraries(by_cmake_${engine}_${language} zemirako::zemirako
      zemirako_engine::${engine})
  endforeach()
endforeach()
END_CMAKE
cat >meson.build <<'END_MESON'
project('consumers', 'c', 'cpp', default_options: [
    'c_std=c11', 'cpp_std=c++17', 'warning_level=3', 'werror=true'])
parts = [dependency('zemirako', version: '>=0.2'), dependency('zemirako_engine', version: '>=0.2')]
executable('by_meson_c', 'consumer.c', dependencies: parts)
executable('by_meson_cpp', 'consumer.cpp', dependencies: parts)
END_MESON

words=(-Wall -Wextra -Wpedantic -Werror)
read -ra parts <<<"$(pkg-config --cflags --libs zemirako zemirako_engine)"
cc -std=c11 "${words[@]}" -o by_pkg_config_c consumer.c "${parts[@]}"
c++ -std=c++17 "${words[@]}" -o by_pkg_config_cpp consumer.cpp "${parts[@]}"
cmake -S . -B cmake -G Ninja -DCMAKE_PREFIX_PATH="$room/one;$room/two" >log || { cat log; exit 1; }
cmake --build cmake >log || { cat log; exit 1; }
meson setup meson . >log || { cat log; exit 1; }
meson compile -C meson >log || { cat log; exit 1; }
export LD_LIBRARY_PATH=$room/two/lib:$room/one/lib
for program in by_* cmake/by_* meson/by_*; do
    if [ -f "$program" ]; then
        printf '%s: ' "${program##*/}"
        "./$program"
    fi
done | tee said
[ "$(sed 's/^.*: //' said | sort -u | wc -l)" = 1 ]
