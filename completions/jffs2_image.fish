# Completion of jffs2_image for fish. Copy this file to ~/.config/fish/completions/jffs2_image.fish.

# Whether the command is one of these.
function __jffs2_image_in
    __fish_seen_subcommand_from $argv
end

# The commands
complete -c jffs2_image -n __fish_use_subcommand -f
complete -c jffs2_image -n __fish_use_subcommand -a check -d 'Report all nodes, and whether it mounts'
complete -c jffs2_image -n __fish_use_subcommand -a ls -d 'The tree, a line for each object'
complete -c jffs2_image -n __fish_use_subcommand -a cat -d 'Bytes of a regular file'
complete -c jffs2_image -n __fish_use_subcommand -a build -d 'Make an image from a listing'
complete -c jffs2_image -n __fish_use_subcommand -a append -d 'Extend an image by a listing'
complete -c jffs2_image -n __fish_use_subcommand -a update -d 'Listing into the blank blocks'
complete -c jffs2_image -n __fish_use_subcommand -a decompress -d 'Copy with data decompressed'
complete -c jffs2_image -n __fish_use_subcommand -a compress -d 'Copy with data compressed'
complete -c jffs2_image -n __fish_use_subcommand -a compact -d 'Copy of the nodes that matter'
complete -c jffs2_image -n __fish_use_subcommand -a extract -d 'Tree into a new folder'
complete -c jffs2_image -n __fish_use_subcommand -a listing -d 'Listing of a folder'
complete -c jffs2_image -n __fish_use_subcommand -a info -d 'Find byte order and block size'
complete -c jffs2_image -n __fish_use_subcommand -a cuts -d 'Which steps survive a power cut'
complete -c jffs2_image -n __fish_use_subcommand -a diff -d 'Differences between two images'
complete -c jffs2_image -n __fish_use_subcommand -a damage -d 'Files that damaged nodes affect'
complete -c jffs2_image -n __fish_use_subcommand -a map -d 'Where the nodes of an image lie'
complete -c jffs2_image -n __fish_use_subcommand -a history -d 'What became of each node'
complete -c jffs2_image -n __fish_use_subcommand -a pack -d 'Make an image of a folder'
complete -c jffs2_image -n __fish_use_subcommand -a verify -d 'Whether an image holds a folder'
complete -c jffs2_image -n __fish_use_subcommand -a help -d 'Help of a command'
complete -c jffs2_image -n '__jffs2_image_in help' -f \
    -a 'check ls cat build append update decompress compress compact extract listing info cuts diff damage map history pack verify help'

# Options of the program and of every command
complete -c jffs2_image -n 'not __jffs2_image_in help' -s h -l help -d 'Print help'
complete -c jffs2_image -n __fish_use_subcommand -s V -l version -d 'Print the version'

# Options of several commands
complete -c jffs2_image -n '__jffs2_image_in check ls cat build append update decompress compress compact extract cuts diff damage map history pack verify' \
    -s e -l block -x -a '4K 8K 16K 32K 64K 128K 256K' -d 'Size of an erase block'
complete -c jffs2_image -n '__jffs2_image_in check ls cat build append update decompress compress compact extract cuts diff damage map history pack verify' \
    -l endian -x -a 'little big' -d 'Byte order'
complete -c jffs2_image -n '__jffs2_image_in check ls cat build append update decompress compress compact extract cuts diff damage map history pack verify' \
    -s l -l little-endian -d 'The same as --endian little'
complete -c jffs2_image -n '__jffs2_image_in check ls cat build append update decompress compress compact extract cuts diff damage map history pack verify' \
    -s b -l big-endian -d 'The same as --endian big'
complete -c jffs2_image -n '__jffs2_image_in check ls cat append update decompress compress compact extract cuts diff damage map history verify' \
    -s a -l auto -d 'Find both in the image'
complete -c jffs2_image -n '__jffs2_image_in check ls cat append update decompress compress compact extract info cuts diff damage map history verify' \
    -l oob -x -a '512+16 2048+64 4096+128 4096+224' -d 'Leave out spare bytes behind each page'
complete -c jffs2_image -n '__jffs2_image_in check ls cat append update decompress compress compact extract info cuts diff damage map history verify' \
    -l offset -x -d 'Where the image begins in the file'
complete -c jffs2_image -n '__jffs2_image_in check ls cat append update decompress compress compact extract info cuts diff damage map history verify' \
    -l length -x -d 'How many bytes the image has'
complete -c jffs2_image -n '__jffs2_image_in check ls info cuts diff damage map history verify' -l json \
    -d 'A JSON object for each line'
complete -c jffs2_image -n '__jffs2_image_in build append update compact cuts pack' -l blocks -x -d 'Number of blocks'
complete -c jffs2_image -n '__jffs2_image_in build append update cuts pack' -l page -x \
    -a '4096 8192 16384' -d 'Largest piece of a file in one node'
complete -c jffs2_image -n '__jffs2_image_in check ls cat append extract cuts diff damage' -l decompress \
    -d 'Take it as decompress writes it'
complete -c jffs2_image -n '__jffs2_image_in build append pack' -l weak -d 'Note the weak nodes'
complete -c jffs2_image -n '__jffs2_image_in build cuts pack' -l compress -d 'Compress nodes if they become shorter'
complete -c jffs2_image -n '__jffs2_image_in build append update compact pack' -s p -l pad -d 'Fill OUT with 0xFF'
complete -c jffs2_image -n '__jffs2_image_in build append update decompress compress compact pack' -l atomic \
    -d 'Replace an old OUT only if all goes well'
complete -c jffs2_image -n '__jffs2_image_in build append update decompress compress compact pack' -s o -l output -r \
    -d 'File to write, in place of OUT'
complete -c jffs2_image -n '__jffs2_image_in append decompress compress compact' -l force \
    -d 'Write over an IMAGE that is OUT'
complete -c jffs2_image -n '__jffs2_image_in extract listing pack verify' -l quiet -d 'Print no progress'
complete -c jffs2_image -n '__jffs2_image_in listing pack verify' -l owner -x -d 'Owner and group'
complete -c jffs2_image -n '__jffs2_image_in listing pack verify' -l time -x -d 'Time of everything'

# Options of one command
complete -c jffs2_image -n '__jffs2_image_in check' -l scan -d 'Report alone, no mount'
complete -c jffs2_image -n '__jffs2_image_in check' -l shape -d 'Whether the directories make a tree'
complete -c jffs2_image -n '__jffs2_image_in update cuts' -l plain -d 'Do not compress new nodes'
complete -c jffs2_image -n '__jffs2_image_in update cuts' -l tail -d 'Write into begun blocks too'
complete -c jffs2_image -n '__jffs2_image_in cat' -l strict -d 'Status 3 if no node has some bytes'
complete -c jffs2_image -n '__jffs2_image_in cat' -l ino -x -d 'Inode, in place of a path'
complete -c jffs2_image -n '__jffs2_image_in cat' -l upto -x -d 'Highest version that counts'
complete -c jffs2_image -n '__jffs2_image_in map' -l svg -d 'One SVG picture'
complete -c jffs2_image -n '__jffs2_image_in cuts' -l on -r -d 'Image to go on from'
complete -c jffs2_image -n '__jffs2_image_in cuts' -l update -d 'What update would write'
complete -c jffs2_image -n '__jffs2_image_in history' -l since -x -d 'No node of an earlier time'
complete -c jffs2_image -n '__jffs2_image_in history' -l until -x -d 'No node of a later time'
complete -c jffs2_image -n '__jffs2_image_in extract' -l deleted -d 'Removed files, as INO-NAME'
complete -c jffs2_image -n '__jffs2_image_in extract' -l owners -d 'Set the owners of the image'
complete -c jffs2_image -n '__jffs2_image_in decompress compact' -l clashes -x -a higher \
    -d 'If nodes clash, keep one by its address'
complete -c jffs2_image -n '__jffs2_image_in diff verify' -l times -d 'Compare times of change too'

# Words: files, and folders for listing
complete -c jffs2_image -n '__jffs2_image_in listing' -x -a '(__fish_complete_directories)'
