#!/bin/sh
for f in $(ls *.txt); do
	cat $f | grep -c a
done
if [ $1 == "all" ]; then
  cd $2
  rm -rf $target/*
fi
echo `date`
unused=3
local x=1
read line
echo "$line"
