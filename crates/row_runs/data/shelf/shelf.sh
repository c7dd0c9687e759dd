# Answers the streams `spot` and `apart`. Run as: sh shelf.sh
while read -r next turn stream item place lamp; do
  case $stream in
    spot)   # the places of an item, from the left: 2, 4, 6 and 8
      if [ "$turn" -lt 4 ]; then echo "yield $((2 * turn + 2))"; else echo end; fi ;;
    apart)  # a place as `#4`; the lamp stands at 0
      if [ "${place#\#}" -gt 2 ] && [ "$turn" = 0 ]; then echo yield; else echo end; fi ;;
    *) echo end ;;
  esac
done
