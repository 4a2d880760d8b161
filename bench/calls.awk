# Of a file of callgrind (with its names and places written out, by instruction): how often the function `counted` is called, and how often the
# allocator is, which the first instruction of each of its functions tells.
/^fn=/ {
    function_name = substr($0, 4)
    is_allocator = function_name ~ /^(malloc|calloc|realloc|memalign|aligned_alloc|posix_memalign)$/
    next
}
/^cfn=/ { called = substr($0, 5); next }
/^calls=/ {
    if (called == counted) calls += substr($1, 7)
    behind_call = 1
    next
}
# The line behind a call has what the callee took.
behind_call { behind_call = 0; next }
is_allocator && /^0x/ {
    place = sprintf("%18s", $1)
    taken[function_name, place] += $NF
    if (!(function_name in first) || place < first[function_name]) first[function_name] = place
}
END {
    for (name in first) allocations += taken[name, first[name]]
    printf "%d %d\n", calls, allocations
}
