#!/usr/bin/env bash
# Times the library and the program, and Healpix_cxx 3.80, cds.moc 5.0 with cdshealpix 0.30.2 and healpix.essentials 3.60 on the same input.
# Prints a table of the common operations (`peers.py`), then one line for each other operation. Needs Debian's libhealpix-cxx-dev,
# libcds-moc-java, libcds-healpix-java and libhealpix-java. Writes its input into bench/data once (150 MB), and the library for C each time.
set -euo pipefail
cd "$(dirname "$0")"
jars=/usr/share/java/cds.moc.jar:/usr/share/java/cdshealpix.jar:/usr/share/java/healpix.jar
[ -d data ] || python3 generate.py data > /dev/null
g++ -O2 -march=x86-64-v2 -std=c++17 -I/usr/include/healpix_cxx peer.cc -o peer -lhealpix_cxx
(cd ../crates/moc_bench && rt run -- clients < /dev/null > /dev/null 2>&1)
javac -nowarn -cp "$jars" -d data PeerJava.java 2> /dev/null
./peers.py
for operation in border13 border29; do
    printf 'moc     '
    ../crates/moc_bench/out/moc_bench "$operation" 9 < /dev/null
    printf 'cxx     '
    ./peer data "$operation" 9
done
# Adds of one cell each, in seconds: whole runs of the program on scripts, and adds of the peers in memory.
../moc uniq 0 0 > /dev/null
for script in adds_only adds_count_cell adds rising falling shuffled deep100000 deep1000000; do
    TIMEFORMAT="moc     $script %R"
    time ../crates/moc_cli/out/moc_cli run < "data/$script.script" > /dev/null
done
for operation in adds_only adds; do
    printf 'cxx     '
    ./peer data "$operation" 1
done
java_peer() { java -Xmx2g -XX:+UseSerialGC -cp "$jars:data" PeerJava "$1" data "${@:2}"; }
for operation in adds_only adds; do
    printf 'cds     '
    java_peer cds "$operation" 3
    printf 'ess     '
    java_peer essentials "$operation" 1
done
# The writers of cds.moc, which are slower than its cells, one after another into a string.
for operation in write_ascii write_json; do
    printf 'cds     '
    java_peer cds "$operation" 25
done
# Whole conversions by the program, and a conversion by cds.moc in memory. The operations read_a and write_json above are those of Healpix_cxx.
for formats in "ascii json" "json ascii" "ascii uniq" "uniq ascii"; do
    read -r from to <<< "$formats"
    case "$from" in ascii) file=moc_a.txt ;; json) file=moc_a.json ;; uniq) file=moc_a.uniq ;; esac
    TIMEFORMAT="moc     $from to $to %R"
    for _ in 1 2 3 4 5; do
        time ../crates/moc_cli/out/moc_cli convert "$from" "$to" < "data/$file" > /dev/null
    done
done
printf 'cds     '
java_peer cds ascii_to_json 5
# Schedules in memory and by the program, and crews.
for operation in turns rounds10 rounds1000 rounds100000; do
    printf 'moc     '
    ../crates/moc_bench/out/moc_bench "$operation" 9 < /dev/null
done
./schedules.py
./crews.py
# Calls of the shared map, by one client and by several threads.
../crates/moc_bench/out/moc_bench clients 20000
# Calls of a service in C++, by the shared map through the functions of ploverchaise.h, and by sorted vectors with locks.
../moc library data/library 2> data/library.log
g++ -O2 -march=x86-64-v2 -std=c++17 -Idata/library service.cpp data/library/libploverchaise.a -lpthread -o service
./service 2
