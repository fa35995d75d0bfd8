-- For pandoc: makes a manual page of a page in Markdown. Code is bold, since a terminal has one kind of letters. A
-- table whose rows are longer than a line gets columns in proportion to what is in them, and ragged lines. With
-- the metadata `name` the page begins with the section NAME, and its own title is dropped.

-- In letters: what pandoc takes for the width of a page, and the space between two columns.
local LINE, GAP = 70, 3
-- A longer word may be broken after a comma.
local LONG = 40

-- The length of the longest cell of each column, and of its longest word.
local function longest(tbl)
    local most, words = {}, {}
    local function look(rows)
        for _, row in ipairs(rows) do
            for column, cell in ipairs(row.cells) do
                local text = pandoc.utils.stringify(cell.contents)
                most[column] = math.max(most[column] or 1, pandoc.text.len(text))
                for word in text:gmatch('%S+') do
                    for piece in word:gmatch(#word > LONG and '[^,]+,?' or '.+') do
                        words[column] = math.max(words[column] or 1, pandoc.text.len(piece))
                    end
                end
            end
        end
    end
    look(tbl.head.rows)
    for _, body in ipairs(tbl.bodies) do look(body.body) end
    return most, words
end

function Table(tbl)
    local most, words = longest(tbl)
    local all = -GAP
    for _, length in ipairs(most) do all = all + length + GAP end
    if all <= LINE then
        for _, spec in ipairs(tbl.colspecs) do spec[2] = nil end
        return tbl
    end
    -- Narrow columns keep their width. The others have room for their longest word, and share what is left.
    local left, wide = LINE - GAP * (#most - 1), 0
    for column, length in ipairs(most) do
        if length > 16 then
            left = left - words[column]
            wide = wide + math.min(length, 60)
        else
            left = left - length
        end
    end
    for column, length in ipairs(most) do
        local width = length > 16 and words[column] + math.max(0, left) * math.min(length, 60) / wide or length
        tbl.colspecs[column][2] = width / LINE
    end
    return { pandoc.RawBlock('man', '.ad l\n.nh'), tbl, pandoc.RawBlock('man', '.hy\n.ad b') }
end

function Code(code)
    local text = code.text
    -- A line of the page's source that begins with a space would begin a new line of the page.
    text = text:gsub('^ ', '\u{a0}')
    if #text <= LONG or text:find(' ') then return pandoc.Strong(pandoc.Str(text)) end
    local pieces = pandoc.List({})
    for piece in text:gmatch('[^,]+,?') do
        pieces:extend({ pandoc.Str(piece), pandoc.RawInline('man', '\\:') })
    end
    return pandoc.Strong(pieces)
end

function Pandoc(doc)
    local name = doc.meta.name
    if name then
        local blocks = pandoc.List({ pandoc.Header(1, 'NAME'), pandoc.Para(name), pandoc.Header(1, 'DESCRIPTION') })
        for _, block in ipairs(doc.blocks) do
            if block.t ~= 'Header' then
                blocks:insert(block)
            elseif block.level > 1 then
                blocks:insert(pandoc.Header(block.level - 1, block.content))
            end
        end
        doc.blocks = blocks
    end
    return doc
end
