# Makes the files of the rule on form feeds of those of the rule on tabs.
/^ *--/ s/\btab\b/form feed/g
/^ *\/\// s/\btab\b/form feed/g
s/"tab"/"form feed"/g
s/four spaces replace/a space replaces/
s/"    "/" "/
s/b'\\t'/12/
s/\(eq\|≡ \|≢ \)9/\112/g
s/ 9\([) ]\)/ 12\1/g
s/TabLemmas/FormFeedLemmas/g
s/Tabs/FormFeeds/g
s/\btabs\b/form_feeds/g
s/\btab/feed/g
s/\(let is : .* ≡ 12\) = subst/\1 =\n    subst/
