# What programs do in a mounted folder, for `tools/refused-growths mounts`. Beside it, `session` has what a kernel asked meanwhile:
#
#     tools/mount-record PROGRAM FOLDER bash $PWD/tools/sweeps/session.sh && cp FOLDER/stdin tools/sweeps/session
#
# Links are refused there, which is no fault.
mkdir work && cd work
echo 'one line' >a.txt
echo 'another line' >>a.txt
cp a.txt b.txt
cat a.txt b.txt
mv b.txt c.txt
ln -s a.txt link
ln a.txt hard
mkdir -p x/y
mv c.txt x/y/
mv x/y z
chmod 600 a.txt
touch -d @1000 a.txt
truncate -s 100 a.txt
exec 3<>a.txt
rm a.txt
cat <&3
echo 'more' >&3
exec 3>&-
ls -lR .
df .
mkdir ../.snapshots/one
echo 'later' >x/later
ls ../.snapshots/one/work
cat ../.snapshots/one/work/z/c.txt
rmdir ../.snapshots/one
echo new >n && echo old >o && exec 4<o && mv n o && cat <&4 && exec 4<&-
mkdir e && mkdir f && mv -T f e
cd .. && rm -r work
