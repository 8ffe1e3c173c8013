# Folders with odd names: read by launcher.sh. From each both programs start, and `make` builds all.

sed -i "s/^code of hidreport: .*/code of hidreport: $(sh "$copy/tools/program.sh" code hidreport)/
    s/^code of hid: .*/code of hid: $(sh "$copy/tools/program.sh" code hid)/" "$copy/generated/SOURCES"
rm -rf "$copy/build"
number=0
for name in 'a b' "a'b" 'a"b' 'a$b' 'a$(b)' 'a(b' 'a:b' 'a%b' 'a&b' 'a;b' $'a\nb' $'a\tb' 'a\b' 'a#b' 'a*b' \
    'a=b' 'a`b' '~a' '-a' $'a\351'; do
    mkdir "$scratch/odd"
    cp -R "$copy" "$scratch/odd/$name"
    for called in hid hidreport; do
        call_in "$scratch/odd/$name" 0 x
        shows "a folder '$name'" 0 'linked: <0> <x>' 0 1
        call_in "$scratch/odd/$name" 0
        shows "again in a folder '$name'" 0 'linked: <0>' 0 0
    done
    number=$((number + 1))
    rm -r "$scratch/odd"
done
[ "$number" -eq 20 ] || wrong 'fewer folders'
