# A problem of 8000 objects, of ordinary names or, with -v kind=colliding, of names that all collide in a table that hashes with a seed
# known beforehand (std's default).
BEGIN {
    front = kind == "colliding" ? "aye92aaaaaaaaaaal6y22sbt" : "anordinarynameofa-place-"
    back = kind == "colliding" ? "zzzzzzzzzzzzzzzz" : "-of-the-roadmap-"
    print "(define (problem names) (:domain roads)\n (:objects"
    for (i = 0; i < 8000; i++) printf "  %s%08d%s\n", front, i, back
    print ")\n (:init) (:goal (and)))"
}
