#!/bin/bash
files=( *.log )
for file in ${files[@]}; do
	cp $file /backup/$file
done
if [[ $name = "a" ]] then
  echo "ü" $name
fi
x=$(cat file)
[ -n $x ] && echo yes
