# For judges/compare, bench/run and bench/between, which run this in the repository's root: builds what they link.

# the proved library of a folder for this computer, built if need be: its path there
library_in() { # FOLDER
    (cd "$1" && tools/library)
}

# build the library and the oracle; then the program of a source file over both, target/judges/release/NAME
build_program() { # FOLDER/NAME.rs
    folder=$(dirname "$(library_in .)")
    judges/rust/build
    # the names of this computer's library end in no processor's
    LISCHEMUR_PART='' rustc -O --edition 2021 --extern oracle=target/judges/release/liboracle.rlib -L "native=$folder" \
        -o "target/judges/release/$(basename "$1" .rs)" "$1"
}
