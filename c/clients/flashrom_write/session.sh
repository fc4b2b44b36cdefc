# session.sh FLASHROM FOLDER: writes an image into the whole chip, with its erasure and its verification, and compares the chip's bytes.
set -e
seq 200000 | head -c 1048576 > "$2/image"
LD_PRELOAD="$2/chip.so" "$1" -p ch341a_spi -c W25Q80.V -w "$2/image"
cmp "$2/chip" "$2/image" && echo the chip has the image
