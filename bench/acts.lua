-- an act that wasn't accepted is sent again, so that a number is never left out
local number = 1
request = function()
    local body = '{"desk":101,"request":' .. number .. ',"act":"day","day":"2025-03-03"}'
    return wrk.format("POST", "/acts", nil, body)
end
response = function(status)
    if status == 200 then number = number + 1 end
end
