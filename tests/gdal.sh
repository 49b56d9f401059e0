# A bundle and a blob, read by GDAL: the driver ESRIC reads bundles of a cache, the driver MRF lone blobs.

gdal_size() { gdalinfo "$1" 2>err | sed -n 's/^Size is //p'; }

if has_gdal; then
    # A grid of 256 by 256 bytes, each the number of its column.
    column=0
    while [ "$column" -lt 256 ]; do
        numbers 1 "$column"
        column=$((column + 1))
    done >columns
    cp columns values
    while [ "$(wc -c <values)" -lt 65536 ]; do
        cat values values >more
        mv more values
    done
    {
        bytes 4c 47 52 31 01 00 01 00 00 00 01 00 00 01 00 00 00
        zeros 65536 | tr '\0' '\1'
        cat values
    } >columns_grid

    # A cache of two by two such tiles, of which the upper right one is there.
    mkdir -p cache/_alllayers/L00
    cp "$here/docs/conf.xml" cache/conf.xml
    tiles=cache/_alllayers/L00/R0000C0000.bundle
    for command in put build; do
        rm -f "$tiles" "$tiles.jnl"
        tile 0 1 columns_grid | "$program" "$tiles" "$command" 3 0 1 >out 2>err
        if [ "$(gdal_size cache/conf.xml)" = '512, 512' ]; then holds=yes; else holds=no; fi
        count "GDAL: the size of a cache, $command" "$holds"

        for band in 1 2 3; do
            gdal_translate -q -b "$band" -srcwin 256 0 256 256 -of ENVI cache/conf.xml pixels 2>err
            if cmp -s pixels values; then holds=yes; else holds=no; fi
            count "GDAL: a tile of a bundle, $command, band $band" "$holds"
            rm -f pixels*
        done
    done

    # Lone blobs: that tile, and one whose grid has marks and values of two bytes.
    "$program" "$tiles" get 0 1 raw >tile.lerc2 2>err
    if [ "$(gdal_size tile.lerc2)" = '256, 256' ]; then holds=yes; else holds=no; fi
    count 'GDAL: the size of a tile' "$holds"
    for version in 3 4; do
        "$program" - encode "$version" 0 <"$here/docs/hill.lgr1" >hill.lerc2 2>err
        gdal_translate -q -of ENVI hill.lerc2 pixels 2>err
        # Row by row; an invalid pixel is 0.
        {
            tail -c +82 "$here/docs/hill.lgr1" | head -c 108
            zeros 4
            tail -c +190 "$here/docs/hill.lgr1"
            zeros 4
        } >heights
        if cmp -s pixels heights; then holds=yes; else holds=no; fi
        count "GDAL: a blob of version $version" "$holds"
        rm -f pixels*
    done
fi
