# Read by a shell: sets `processor` to the kind of processor that jri is built for. That is what JRI_CPU names; by default
# x86-64-v3 if this machine has AVX2 and what belongs to it, otherwise x86-64-v2.
processor=x86-64-v2
while read -r name values; do
    [ "$name" = flags ] || continue
    processor=x86-64-v3
    for flag in avx avx2 bmi1 bmi2 f16c fma abm movbe; do
        case " $values " in *" $flag "*) ;; *) processor=x86-64-v2 ;; esac
    done
    break
done </proc/cpuinfo
processor=${JRI_CPU:-$processor}
